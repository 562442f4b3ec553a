# A log from its listing, and back; every error with its line.
for sample in four-track composite; do
    done_by pack $sample.txt -o new
    same "$sample packed" $sample.log new
    "${vin[@]}" list $sample.log | "${vin[@]}" pack >new
    same "$sample listed and packed" $sample.log new
    "${vin[@]}" list --decode $sample.log | "${vin[@]}" pack - -o - | cmp -s - $sample.log
    result "$sample: comments are passed over" $?
    sed 's/$/\r/' $sample.txt | "${vin[@]}" pack | cmp -s - $sample.log
    result "$sample: lines that end in carriage return and line feed" $?
    sed '$d' $sample.txt | tr A-F a-f | sed 's/^\([a-z]* [0-9]*\) a /\1 A /; s/^\([a-z]* [0-9]*\) b /\1 B /' | "${vin[@]}" pack | cmp -s - $sample.log
    result "$sample: without end, in small letters" $?
done
printf '# nothing\n\n   \n' | "${vin[@]}" pack | cmp -s - <(bytes 00)
result "the empty listing" $?
: | "${vin[@]}" pack | cmp -s - <(bytes 00)
result "no bytes" $?

# Every log: drawn ones of all kinds of items, from none to the longest, listed and packed again.
"${CC:-cc}" -std=c11 -Wall -Wextra -Wpedantic -Werror -O2 "$top/tests/tool/draw.c" -o draw
result "draw.c" $?
mkdir drawn
./draw 1 60 drawn
result "draw" $?
for log in drawn/*.log; do
    "${vin[@]}" list "$log" >text && "${vin[@]}" pack text -o new && cmp -s "$log" new
    result "list | pack of $log, seed 1" $?
    "${vin[@]}" list new | cmp -s - text
    result "pack | list of $log, seed 1" $?
done
[ "$(stat -c %s drawn/59.log)" -eq 32768 ] && [ "$(stat -c %s drawn/0.log)" -eq 1 ]
result "the longest and the empty log are among them" $?
"${vin[@]}" list drawn/59.log | sed '$d' >text
echo "ovf 0 0000" >>text
misuse "vin: text:$(wc -l <text): with this item the log has more than 32768 bytes" pack text -o new
# The last bit: 10921 marks are 262104 bits of 262144. Two notices leave four for the end mark; a timed status leaves none.
for n in {1..10921}; do echo "ovf 0 0000"; done >text
{ cat text; echo "are 0 1 00"; echo "are 0 1 00"; } | "${vin[@]}" pack -o new
result "a log to the last bit" $?
[ "$(stat -c %s new)" -eq 32768 ] && [ "$("${vin[@]}" list new | tail -n 1)" = "end 10923" ]
result "a log to the last bit is listed" $?
rm -f new
echo "sta 0 A 0000 resp 1" >>text
misuse "vin: text:10922: with this item the log has more than 32768 bytes" pack text -o new
rm -rf drawn draw text

# What is no line of a listing.
wrong() { # LINE MESSAGE: as the second line
    printf 'dat 2 A 0001\n%s\n' "$1" >t
    misuse "vin: t:2: \"$1\": $2" pack t -o new
    [ ! -e new ]
    result "\"$1\": nothing is written" $?
}
rm -f new
wrong "cmd 2 C 0843" "the side is A or B"
wrong "cmd 2 AB 0843" "the side is A or B"
wrong "sta 16 A 0843" "the bus is 0 to 15"
wrong "sta -1 A 0843" "the bus is 0 to 15"
wrong "dat 2 A 084" "the word has 4 hexadecimal digits"
wrong "dat 2 A 08430" "the word has 4 hexadecimal digits"
wrong "dat 2 A 0x43" "the word has 4 hexadecimal digits"
wrong "arn 5 0 01234567" "the channel is 1 to 4"
wrong "arn 5 1 0123" "the word has 8 hexadecimal digits"
wrong "are 5 1 0123" "the diagnostics are 2 hexadecimal digits"
wrong "usr 5 1 0123" "the label is 2 or 3"
wrong "ovf 5 A 0123" "a ovf line is: ovf BUS WORD"
wrong "cmd 2 A 0843 resp 8" "a cmd line is: cmd BUS A|B WORD [at TIME]"
wrong "sta 2 A 0843 at 8" "a sta line is: sta BUS A|B WORD [resp TIME]"
wrong "cmd 2 A 0843 at" "a cmd line is: cmd BUS A|B WORD [at TIME]"
wrong "cmd 2 A 0843 at 1 2" "a cmd line is: cmd BUS A|B WORD [at TIME]"
wrong "dat 2 A 0843 at 1" "a dat line is: dat BUS A|B WORD"
wrong "cmd 2 A 0843 at 42949672960000" "a time is a decimal number of microseconds below 42949672960000"
wrong "arn 5 1 00000000 at -1" "a time is a decimal number of microseconds below 42949672960000"
wrong "cmd 2 A 0843 at 99999999999999999999" "a time is a decimal number of microseconds below 42949672960000"
wrong "sta 2 A 0843 resp 10000" "a response time is a decimal number of microseconds below 10000"
wrong "CMD 2 A 0843" "unknown kind; the kinds are cmd, sta, dat, err, arn, are, usr, ovf, and end at the end"
wrong "refused 2 at 0" "unknown kind; the kinds are cmd, sta, dat, err, arn, are, usr, ovf, and end at the end"
wrong "end" "the last line is: end NUMBER"
wrong "end one" "the last line is: end NUMBER"
printf 'dat 2 A 0001\nend 2\n' >t
misuse "vin: t:2: end says 2 items, and there are 1; a listing that was edited goes without this line" pack t -o new
printf 'dat 2 A 0001\nend 1\n\n# well\ndat 2 A 0002\n' >t
misuse 'vin: t:5: "dat 2 A 0002": nothing follows the line end' pack t -o new
printf 'dat 2 A 0001\nend 1\n\n# well\n' >t
done_by pack t -o new
same "a comment behind the end" <(bytes 32 00 00 80) new
misuse "vin: four-track.capture: this is no listing: a text of one item a line" pack four-track.capture -o new2
# The edges of every field.
printf '%s\n' "cmd 15 B FFFF at 42949672959999" "sta 0 A 0000 resp 9999" "arn 15 4 FFFFFFFF at 0" "are 0 1 FF" "usr 3 2 ABCD" "ovf 15 FFFF" "err 1 B 8001" "end 7" >t
done_by pack t -o new
says 0 "$(cat t)" list new
same "a tagged command at the edge" <(bytes 1F FF FF FF FF FF FF E7 0F) <(head -c 9 new)
rm -f t new

# To a terminal nothing is packed unless it is asked for; to a pipe it is. (script gives a terminal.)
if command -v script >/dev/null; then
    echo "dat 2 A 0001" >t
    printf -v line '%q ' "${vin[@]}" pack t
    script -qec "$line" /dev/null </dev/null 2>&1 | tr -d '\r' >have
    echo "vin: pack: no output is named, and standard output is a terminal: -o FILE, or -o -" >want
    same "pack to a terminal" want have
    script -qec "$line -o -" /dev/null </dev/null | cmp -s - <(bytes 32 00 00 80)
    result "pack to a terminal that is asked for" $?
    rm -f t have want
fi
