# Picking buses from a log and joining logs, held to what the listing says.
picks() { # WHAT PATTERN WORD..: what vin pick gives lists as those lines of the sample whose bus matches
    local what=$1 pattern=$2
    shift 2
    "${vin[@]}" pick "$@" >new 2>err.txt
    [ $? -eq 0 ] && [ ! -s err.txt ]
    result "$what: status" $?
    "${vin[@]}" list new >have
    sed '$d' composite.txt | grep -E "^[a-z]+ ($pattern) " >want
    echo "end $(wc -l <want)" >>want
    same "$what" want have
    rm -f new have want err.txt
}
picks "pick 0" 0 0 composite.log
picks "pick 1" 1 1 composite.log
picks "pick 5" 5 5 composite.log -o -
picks "pick 0,5" "0|5" 0,5 composite.log
picks "pick 5,0" "0|5" 5,0 composite.log
picks "pick 0-1" "0|1" 0-1 composite.log
picks "pick 1-15" "1|5" 1-15 composite.log
picks "pick 0-0,4-6" "0|5" 0-0,4-6 composite.log
picks "pick 5,5,5-5,05" 5 5,5,5-5,05 composite.log
picks "pick 2,15" "no such bus" 2,15 composite.log
picks "pick all" "[0-9]+" all composite.log
"${vin[@]}" pick 1 <composite.log | "${vin[@]}" list | grep -cE '^[a-z]+ 1 ' >have
grep -cE '^[a-z]+ 1 ' composite.txt >want
same "pick as a filter" want have
done_by pick all composite.log -o new
same "pick all" composite.log new
done_by pick 2 four-track.log -o new
same "the only bus" four-track.log new
done_by pick 3 four-track.log -o new
same "none of its items" <(bytes 00) new

joins() { # WHAT LOG..: what vin join gives lists as their lists, one behind the other
    local what=$1 log
    shift
    done_by join "$@" -o new
    for log; do "${vin[@]}" list "$log" | sed '$d'; done >want
    echo "end $(wc -l <want)" >>want
    "${vin[@]}" list new >have
    same "$what" want have
    rm -f new have want
}
bytes 00 >empty.log
joins "join" composite.log four-track.log
joins "join, the other way" four-track.log composite.log
joins "join a log with itself" composite.log composite.log
joins "join three" composite.log four-track.log composite.log
joins "join seven" composite.log empty.log four-track.log empty.log empty.log composite.log four-track.log
done_by join empty.log composite.log -o new
same "the empty log first" composite.log new
done_by join composite.log empty.log -o new
same "the empty log second" composite.log new
"${vin[@]}" join - four-track.log <composite.log | "${vin[@]}" pick 0,1,5 | cmp -s - composite.log
result "join from standard input, picked apart again" $?
"${vin[@]}" join four-track.log - <composite.log | "${vin[@]}" pick 2 | cmp -s - four-track.log
result "and the other one" $?

# What is no set of buses.
rm -f new
for buses in "" 16 2, ,2 2,,3 2- -1x 7-5 2-16 0x2 "2 3" two 002 All 2-3-4; do
    misuse "vin: pick: \"$buses\" is no set of buses: numbers 0 to 15 and ranges, as in 2,5-7; or all" pick -o new -- "$buses" composite.log
done
usage pick "an argument is missing" "BUSES [LOG] [-o LOG]" -o new
usage pick "one argument too many: c" "BUSES [LOG] [-o LOG]" 2 b c -o new
usage join "an argument is missing" "LOG LOG.. [-o LOG]" composite.log -o new
misuse "vin: nothing: No such file or directory" pick 2 nothing -o new
misuse "vin: nothing: No such file or directory" join composite.log nothing -o new
misuse "vin: join: standard input can be read only once" join - composite.log - -o new

# Refusals, each with its log.
head -c 100 four-track.log >cut.log
cut="refused by 2 at bit 784 (byte 98, bit 0, item 28): a status begins here, and the log ends inside it"
bytes 32 5F 77 91 20 00 1F FF 80 >limit.log
limit="refused by 4 at bit 25 (byte 3, bit 1, item 2): a status on bus 2 whose response is 16383: it must be below 10000"
refused "vin: cut.log: $cut" pick 2 cut.log -o new
refused "vin: cut.log: $cut" pick 9 cut.log -o new
refused "vin: limit.log: $limit" pick 9 limit.log -o new
refused "vin: cut.log: $cut" join cut.log composite.log -o new
refused "vin: cut.log: $cut" join composite.log cut.log -o new
refused "vin: cut.log: $cut" join composite.log four-track.log cut.log limit.log -o new
refused "vin: cut.log: $cut" join cut.log limit.log -o new
refused "vin: limit.log: $limit" join limit.log cut.log -o new
: >none.log
refused "vin: none.log: refused by 2 at bit 0 (byte 0, bit 0, item 1): the file is empty, and the empty log is a byte 00" join composite.log none.log -o new
head -c 32769 /dev/zero >long.log
refused "vin: long.log: refused by 2 at 0: the log has more than 32768 bytes" pick all long.log -o new
refused "vin: long.log: refused by 2 at 0: the log has more than 32768 bytes" join composite.log long.log -o new
refused "vin: long.log: refused by 2 at 0: the log has more than 32768 bytes" join long.log composite.log -o new
refused "vin: four-track.capture: refused by 2 at bit 0 (byte 0, bit 0, item 1): it begins with FAF320, as a capture does, and is no log" join composite.log four-track.capture -o new
"${vin[@]}" pick 2 <cut.log >out.txt 2>err.txt
[ $? -eq 1 ] && [ ! -s out.txt ] && echo "vin: standard input: $cut" | cmp -s - err.txt
result "a refusal of standard input" $?
# 10922 marks and the end mark are 32767 bytes; one mark more is refused, by the log that has it.
for n in {1..5461}; do echo "ovf 1 0000"; done | "${vin[@]}" pack >half.log
echo "ovf 1 0000" | "${vin[@]}" pack >mark.log
done_by join half.log half.log -o whole.log
[ "$(stat -c %s whole.log)" -eq 32767 ]
result "as long as a log of marks can be" $?
six="refused by 6 at 32770: joined with it the log would have 32770 bytes, and a log has at most 32768"
refused "vin: mark.log: $six" join whole.log mark.log -o new
refused "vin: whole.log: $six" join mark.log whole.log -o new
refused "vin: mark.log: $six" join half.log half.log mark.log empty.log -o new
refused "vin: half.log: refused by 6 at 49150: joined with it the log would have 49150 bytes, and a log has at most 32768" join whole.log half.log -o new
[ ! -e new ]
result "misuse and refusals write nothing" $?

# No log is lost.
cp composite.log kept.log
misuse "vin: pick: kept.log is also an input" pick 0 kept.log -o kept.log
misuse "vin: join: ./kept.log is also an input" join kept.log four-track.log -o ./kept.log
misuse "vin: join: kept.log is also an input" join four-track.log kept.log -o kept.log
"${vin[@]}" pick 0 -o kept.log <kept.log 2>err.txt
[ $? -eq 2 ] && echo "vin: pick: kept.log is also an input" | cmp -s - err.txt
result "pick, the input left out, is the output" $?
same "the log is as it was" composite.log kept.log
if command -v script >/dev/null; then
    printf -v line '%q ' "${vin[@]}" pick 0 kept.log
    script -qec "$line" /dev/null </dev/null 2>&1 | tr -d '\r' >have
    echo "vin: pick: no output is named, and standard output is a terminal: -o FILE, or -o -" >want
    same "pick to a terminal" want have
fi
rm -f new have want out.txt err.txt {empty,cut,limit,none,long,half,mark,whole,kept}.log
