# A front-end buffer replayed: what is stored, what is lost, and the least capacity.
gives() { # SUMMARY LISTING ARGUMENT..: the log on standard output has this listing, and standard error just the summary
    local summary=$1 listing=$2
    shift 2
    "${vin[@]}" replay "$@" >new 2>err.txt
    result "vin replay $*" $?
    "${vin[@]}" list new >have
    printf '%s\n' "$listing" >want
    same "vin replay $*: stored" want have
    printf '%s\n' "vin: $summary" >want
    same "vin replay $*: summary" want err.txt
}
# Two commands of four words fill eight; what comes then is lost until two words have left.
printf '%s\n' "cmd 2 A 0001 at 1" "cmd 2 A 0002 at 2" "dat 9 B 0003" "dat 2 A 0004" "arn 5 2 00000005 at 5" "dat 2 A 0006" "dat 2 A 0007" >t
done_by pack t -o l
printf '%s\n' "4 items" "2 groups  # of a word each" "" "item" "2 items" >e
gives "l: 7 items arrived: 3 stored, 4 lost (1 mark tells of 3); words sent: 2, held: 8" "$(sed -n 1,2p t)
ovf 9 0003
dat 2 A 0006
end 4" l --capacity 8 --events e --slots 1
printf '\0\0\0\0\1\1\0\0\0' >bytes
"${vin[@]}" replay l --capacity 8 --events bytes --slots 1 2>/dev/null | cmp -s - new
result "events as bytes" $?
sed 's/$/\r/' e | "${vin[@]}" replay l --capacity 8 --events - --slots 1 2>/dev/null | cmp -s - new
result "events from standard input, with carriage returns" $?
"${vin[@]}" replay --capacity 8 --events e --slots 1 <l 2>err.txt | cmp -s - new
result "the log from standard input" $?
grep -qx "vin: standard input: 7 items arrived: 3 stored, 4 lost (1 mark tells of 3); words sent: 2, held: 8" err.txt
result "the summary of standard input" $?
gives "l: 7 items arrived: none lost; words sent: 12, held: 5" "$(cat t)
end 7" l --capacity 16 --every 2 --slots 4
echo "1 item" >e
gives "l: 1 item arrived: none lost; words sent: 0, held: 4; did not arrive: 6 items" "$(sed -n 1p t)
end 1" l --capacity 8 --events e --slots 1
: >e
gives "l: 0 items arrived: none lost; words sent: 0, held: 0; did not arrive: 7 items" "end 0" l --capacity 8 --events e --slots 1
noted "vin: l: 7 items arrived: 5 stored, 2 lost (2 marks tell of 2); words sent: 10, held: 3" replay l --capacity 8 --every 3 --slots 5 -o new
# With --strict a loss is status 1, and the log is written all the same.
cp new want
refused "vin: l: 7 items arrived: 5 stored, 2 lost (2 marks tell of 2); words sent: 10, held: 3" replay l --capacity 8 --every 3 --slots 5 --strict -o new
same "vin replay --strict: stored" want new
noted "vin: l: 7 items arrived: none lost; words sent: 12, held: 5" replay l --capacity 16 --every 2 --slots 4 --strict -o new
# The least capacity: with it nothing is lost, with one word less something is.
for every in 1 7 20 100 403; do
    for slots in "--slots 1" "--slots 24" "--plan four-track.plan"; do
        least=$("${vin[@]}" replay four-track.log --least --every $every $slots)
        result "--least of --every $every $slots" $?
        "${vin[@]}" replay four-track.log --capacity "$least" --every $every $slots 2>err.txt | cmp -s - four-track.log && grep -q ': none lost;' err.txt
        result "$least words suffice for --every $every $slots" $?
        [ "$least" -eq 8 ] || ! "${vin[@]}" replay four-track.log --capacity $((least - 1)) --every $every $slots 2>&1 >/dev/null | grep -q ': none lost;'
        result "one word less than $least does not, --every $every $slots" $?
    done
done
says 0 8 replay l --least --every 1 --slots 5
for n in {1..4097}; do echo "dat 2 A 0000"; done | "${vin[@]}" pack >l
refused "vin: l: no capacity is large enough: of 4096 words, the most, 1 item is lost" replay l --least --every 5000 --slots 1
# A plan gives the slots that it draws.
"${vin[@]}" replay four-track.log --capacity 600 --every 403 --plan four-track.plan 2>&1 >/dev/null | grep -q 'words sent: 505, held: 7$'
result "--plan: 505 slots" $?
plan "words 127" "tracks 1"
refused "vin: p:1: refused by 1 at 0: words is 127: a frame has 128 to 512 words" replay four-track.log --capacity 8 --every 1 --plan p -o new

# 19: a mark, before everything else; then every limit that is broken.
printf '%s\n' "dat 2 A 0001" "ovf 2 0001" | "${vin[@]}" pack >l
echo "9 items" >e
refused "vin: l: refused by 19 at bit 25 (byte 3, bit 1, item 2): an overflow mark, and a log that is replayed has none" replay l --capacity 7 --slots 0 --events e -o new
echo "ovf 2 0001" | "${vin[@]}" pack >l
refused "vin: l: refused by 19 at bit 0 (byte 0, bit 0, item 1): an overflow mark, and a log that is replayed has none" replay l --capacity 8 --every 1 --slots 1 -o new
echo "dat 2 A 0001" | "${vin[@]}" pack >l
refused "vin: l: refused by 19 at 0: the capacity is 7 words: a buffer has 8 to 4096
vin: l: refused by 19 at 0: the slots are 2049: a group has 1 to 2048
vin: e: refused by 19 at 0: 9 items arrive, and the log has 1" replay l --capacity 7 --slots 2049 --events e -o new
refused "vin: l: refused by 19 at 0: the capacity is 4294967295 words: a buffer has 8 to 4096" replay l --capacity 4294967304 --slots 1 --every 1 -o new
printf '%s\n' "65535 groups" >e
noted "vin: l: 0 items arrived: none lost; words sent: 0, held: 0; did not arrive: 1 item" replay l --capacity 8 --slots 1 --events e -o new
printf '%s\n' "60000 groups" "item" "9999 groups" >e
refused "vin: e: refused by 19 at 0: there are 70000 events, and at most 65535 are replayed" replay l --capacity 8 --slots 1 --events e -o new
printf '\0\1\7' >e
refused "vin: e: refused by 19 at 0: event 3 is 7; an event is 0, the next item arrives, or 1, a group leaves" replay l --least --slots 1 --events e
# 2 and 4 before it, 6 behind.
bytes 32 >l
refused "vin: l: refused by 2 at bit 0 (byte 0, bit 0, item 1): a data word begins here, and the log ends inside it" replay l --capacity 7 --slots 1 --every 1 -o new
bytes 23 40 00 27 10 00 >l
refused "vin: l: refused by 4 at bit 0 (byte 0, bit 0, item 1): a status on bus 3 whose response is 10000: it must be below 10000" replay l --capacity 7 --slots 1 --every 1 -o new
for n in {1..14500}; do echo "are 5 1 00"; done | "${vin[@]}" pack >l
{ echo "8 items"; for n in {1..7246}; do echo item; echo group; echo item; done; } >e
refused "vin: l: refused by 6 at 38060: what was stored would have 38060 bytes with its marks, and a log has at most 32768" replay l --capacity 8 --slots 2 --events e -o new

# Events that are none, and a wrong command line.
echo "dat 2 A 0001" | "${vin[@]}" pack >l
for line in "itms" "item 2" "2 items 3" "-1 items" "1234567890 items" "1.5 items"; do
    printf 'item\n%s\n' "$line" >e
    misuse "vin: e:2: \"$line\": a line of events is item, group, or a number and items or groups" replay l --capacity 8 --slots 1 --events e -o new
done
misuse "vin: four-track.capture: these are no events: lines as 12 items and 1 group" replay l --capacity 8 --slots 1 --events four-track.capture -o new
misuse "vin: replay: one is needed: --capacity or --least" replay l --every 1 --slots 1 -o new
misuse "vin: replay: only one is taken: --capacity or --least" replay l --capacity 8 --least --every 1 --slots 1 -o new
misuse "vin: replay: one is needed: --events or --every" replay l --least --slots 1
misuse "vin: replay: one is needed: --slots or --plan" replay l --least --every 1
misuse "vin: replay: --least prints a number and writes no log" replay l --least --every 1 --slots 1 -o new
misuse "vin: replay: --every 0: a group leaves after each 1 item or more" replay l --capacity 8 --every 0 --slots 1 -o new
misuse "vin: replay: l is also an input" replay l --capacity 8 --every 1 --slots 1 -o l
misuse "vin: replay: standard input can be read only once" replay --capacity 8 --events - --slots 1 -o new
rm -f l t e p bytes new have want err.txt
