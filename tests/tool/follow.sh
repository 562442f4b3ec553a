# A capture as it arrives: the samples in pieces of every kind, as files and in pipes; items as they are complete; faults, and what stays;
# captures longer than other commands take.
for sample in composite four-track; do
    times=()
    [ -s $sample.times ] && times=(--times-out t)
    for piece in 1 64 387 4095 4096; do
        done_by follow $sample.plan $sample.capture -o new "${times[@]}" --piece $piece
        same "$sample in pieces of $piece" $sample.log new
        [ ${#times[@]} -eq 0 ] || same "$sample in pieces of $piece: times" $sample.times t
    done
    rm -f t
    [ ! -e new.part ] && [ ! -e t.part ]
    result "$sample: no part is left" $?
    "${vin[@]}" follow $sample.plan -o - <$sample.capture >new 2>have
    same "$sample in a pipe" $sample.log new
    [ ! -s have ]
    result "$sample in a pipe: no message" $?
    "${vin[@]}" list $sample.log >want
    "${vin[@]}" follow $sample.plan $sample.capture --list --piece 100 >have
    same "$sample: the listing" want have
    "${vin[@]}" follow $sample.plan $sample.capture --list -o new "${times[@]}" >have
    same "$sample: the listing beside the log" want have
    same "$sample: the log beside the listing" $sample.log new
done

noted "vin: four-track.capture: note: frame times not kept: 2; --times-out FILE writes them" follow four-track.plan four-track.capture -o new
rm -f t

# An item's line comes before the capture has ended: the reader waits for nothing.
plan "words 129" "tracks 1" "bus 2 1553" "bus 5 arinc"
mkfifo pipe
bytes "$(group 2D0001 2F0002)" >one
"${vin[@]}" follow p --list <pipe >have &
follower=$!
exec 7>pipe
cat one >&7
tries=0
until [ -s have ] || [ $((tries += 1)) -gt 100 ]; do sleep 0.1; done
echo "dat 2 A 0001" >want
same "an item is told as soon as it is complete" want have
cat one >&7
exec 7>&-
wait $follower
result "a pipe that ends: status" $?
printf '%s\n' "dat 2 A 0001" "cmd 2 A 0002" "dat 2 A 0001" "cmd 2 A 0002" "end 4" >want
same "and the rest" want have
rm -f pipe one

# Longer than a capture that is read whole, and a log above 32,768 bytes: 4,000 groups of 128 data words.
bytes "$(group | sed 's/01AAAA/2D0001/g')" >one
for n in 1 2 3 4 5; do for m in 1 2 3 4 5 6 7 8 9 10; do cat one; done; done >fifty
for n in 1 2 3 4 5 6 7 8; do for m in 1 2 3 4 5 6 7 8 9 10; do cat fifty; done; done >long
done_by follow p long -o new
[ "$(wc -c <long)" -eq $((4000 * 387)) ] && [ "$(wc -c <new)" -eq $(((4000 * 128 * 25 + 4 + 7) / 8)) ]
result "a long capture: its log's length" $?
"${vin[@]}" follow p long --list | tail -n 1 >have
echo "end 512000" >want
same "a long capture: its items" want have
refused "vin: long: refused by 8 at 1548000: the capture has 1548000 bytes, and at most 1048576 are read
vin: long: hint: vin follow reads a capture of any length; or cut it into pieces of whole groups (split -b 1048383): an item that lies across a cut is lost" read p long -o new
rm -f one fifty long new

# A fault: what was complete before its group stays, in the part, without an end mark.
part="vin: new: note: what was whole stays in new.part"
mkdir -p in
kept() { # MESSAGE BYTES OPTION..: following `bad`
    rm -f new new.part
    refused "$1
$part" follow p bad -o new "${@:3}"
    bytes "$2" >want
    same "what was whole: $2" want new.part
    [ ! -e new ]
    result "no log of a name that is not whole" $?
    rm -f new.part
}
bytes "$(group 2D0007 2D0008 2F0009)$(group | sed 's/^FAF320/FAF321/')" >bad
kept "vin: bad: refused by 9 at word 129 (group 1, track 1, word 1): FAF321: the sync word FAF320 belongs here" 320003990002
"${vin[@]}" read p bad -o new 2>&1 | sed 's/ read / follow /' | head -n 1 >want
"${vin[@]}" follow p bad -o - 2>&1 >/dev/null | head -n 1 >have
same "a fault is told as vin read tells it" want have
bytes "$(group 2D0007)$(group 2D0008 300000)" >bad
kept "vin: bad: refused by 13 at word 131 (group 1, track 1, word 3): 300000: it is on bus 3, which the plan does not use" 320003
bytes "$(group 240008)$(group)$(group 2D0001)" >bad
kept "vin: bad: refused by 13 at word 259 (group 2, track 1, word 2): 2D0001: it does not continue the item that begins at word 1 (group 0, track 1, word 2)" ""
bytes "$(group 2D0007 240008)" >bad
kept "vin: bad: refused by 13 at word 2 (group 0, track 1, word 3): the capture ends inside the item that begins here" 320003
bytes "$(group 549800)$(group)$(group 549801)" >bad
kept "vin: bad: refused by 15 at word 1 (group 0, track 1, word 2): an error notice has no ARINC word behind it: the channel's next notice, or the end, comes first" 6500 --piece 387
bytes "$(group 549800 549801)" >bad
kept "vin: bad: refused by 15 at word 1 (group 0, track 1, word 2): 549800: error notice on bus 5 without its ARINC word: the channel's next notice, or the end, comes first" ""
bytes "$(group 2D0007)FAF320" >bad
kept "vin: bad: refused by 8 at 390: 390 bytes are not whole groups of 387 bytes; left over: 3" 320003
echo "dat 2 A 0007" >want
"${vin[@]}" follow p bad --list >have 2>/dev/null
[ $? -eq 1 ]
result "a fault in a listing: status" $?
same "a fault in a listing: no last line" want have
bytes "$(group 2D0007)$(group 2D0008)$(group 300000)" >bad
printf '%s\n' "dat 2 A 0007" "dat 2 A 0008" >want
for piece in 1 387 4096; do
    "${vin[@]}" follow p bad --list --piece $piece >have 2>/dev/null
    same "a listing does not depend on the pieces: $piece" want have
done
plan "words 129" "tracks 1" "crc yes" "frame-time yes" "bus 2 1553"
bytes "$(group 070000 060000 050001 2D0001)" >bad
"${vin[@]}" follow p bad -o new --times-out t >have 2>&1
[ $? -eq 1 ] && grep -q "refused by 11 at word 128 " have && [ -e t.part ] && [ ! -s t.part ]
result "a CRC word, and the part of the times" $?
rm -f new.part t.part

# What is refused, and a wrong command line.
plan "words 127" "tracks 1"
refused "vin: p:1: refused by 1 at 0: words is 127: a frame has 128 to 512 words" follow p bad -o new
plan "words 129" "tracks 1" "bus 2 1553"
misuse "vin: follow: no output is named: -o FILE, -o - for standard output, or --list" follow p bad
misuse "vin: follow: --list takes standard output, and so does another output" follow p bad --list -o -
misuse "vin: follow: --piece is 1 to 4096 bytes" follow p bad -o new --piece 4097
misuse "vin: follow: --piece is 1 to 4096 bytes" follow p bad -o new --piece 0
misuse "vin: follow: standard input can be read only once" follow - -o new
misuse "vin: nothing.here: No such file or directory" follow p nothing.here -o new
cp bad new.part
cp bad want
misuse "vin: follow: new.part is written first, and is named, too" follow p new.part -o new
same "an input is never written over" want new.part
misuse "vin: follow: new.part is written first, and is named, too" follow p bad -o new --times-out new.part
misuse "vin: follow: bad is also an input" follow p bad -o bad
rm -rf p bad new new.part have want in
unset -f kept
