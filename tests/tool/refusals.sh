# Every refusal that the tool can meet, by its number, with its place and what stands there.
one="words 129" two="tracks 1"

# 1
plan "words 127" "$two"
for command in "plan p" "compose p four-track.log -o new" "read p four-track.capture -o new" "check p four-track.capture"; do
    refused "vin: p:1: refused by 1 at 0: words is 127: a frame has 128 to 512 words" $command
done
plan "words 513" "$two"
refused "vin: p:1: refused by 1 at 0: words is 513: a frame has 128 to 512 words" plan p
plan "$one" "tracks 0"
refused "vin: p:2: refused by 1 at 0: tracks is 0: a group has 1 to 4 tracks" plan p
plan "$one" "tracks 2"
refused "vin: p:2: refused by 1 at 0: more than one track needs exactly one used bus; used: 0" plan p
plan "words 999999999" "tracks 5" "parity yes" "bus 1 1553" "bus 9 arinc"
refused "vin: p:1: refused by 1 at 0: words is 999999999: a frame has 128 to 512 words
vin: p:2: refused by 1 at 0: tracks is 5: a group has 1 to 4 tracks
vin: p:2: refused by 1 at 0: more than one track needs exactly one used bus; used: 2
vin: p:5: refused by 1 at 0: bus 9 is used: with parity the buses are 0 to 7" plan p
plan "$one" "$two" "crc-label 8" "fill-bus 16"
refused "vin: p:3: refused by 1 at 0: crc-label is 8: the CRC word's label is 0 to 7
vin: p:4: refused by 1 at 0: fill-bus is 16: a bus is 0 to 15" plan p
refused "vin: p:3: refused by 1 at 0: crc-label is 8: the CRC word's label is 0 to 7
vin: p:4: refused by 1 at 0: fill-bus is 16: a bus is 0 to 15" check p four-track.capture
plan "$one" "$two" "fill-bus 8" "parity yes"
refused "vin: p:3: refused by 1 at 0: fill-bus is 8: with parity the buses are 0 to 7" plan p
for label in 0 3 7 8 999999999; do for code in 0 7 8 15 16 999999999; do for parity in no yes; do for crc in no yes; do
    plan "$one" "$two" "crc-label $label" "fill-bus $code" "parity $parity" "crc $crc"
    [ $label -le 7 ] && [ $code -le 15 ] && { [ $parity = no ] || [ $code -le 7 ]; }
    legal=$?
    "${vin[@]}" plan p >out.txt 2>err.txt
    [ $? -eq $legal ] && ! grep -q "the plan is illegal" err.txt
    result "a plan of crc-label $label, fill-bus $code, parity $parity, crc $crc" $?
done; done; done; done
# Every rule with every other: legal just when document 01 says so, and each refusal names a rule.
for words in 127 128 512 513; do for tracks in 0 1 2 4 5; do for parity in no yes; do for buses in "" 7 8 "2 9"; do
    plan "words $words" "tracks $tracks" "parity $parity"
    used=0 high=0
    for bus in $buses; do
        echo "bus $bus 1553" >>p
        used=$((used + 1)) high=$((high + bus / 8))
    done
    legal=0
    [ $words -ge 128 ] && [ $words -le 512 ] && [ $tracks -ge 1 ] && [ $tracks -le 4 ] \
        && { [ $tracks -eq 1 ] || [ $used -eq 1 ]; } && { [ $parity = no ] || [ $high -eq 0 ]; } || legal=1
    "${vin[@]}" plan p >out.txt 2>err.txt
    [ $? -eq $legal ] && ! grep -q "the plan is illegal" err.txt
    result "a plan of $words words, $tracks tracks, parity $parity, buses $buses" $?
done; done; done; done

# 2: too long, cut, without an end mark, of an unknown kind, with a bad ending
head -c 32769 /dev/zero >l
refused "vin: l: refused by 2 at 0: the log has more than 32768 bytes" list l
refused "vin: l: refused by 2 at 0: the log has more than 32768 bytes" compose four-track.plan l -o new
: >l
refused "vin: l: refused by 2 at bit 0 (byte 0, bit 0, item 1): the file is empty, and the empty log is a byte 00" list l
head -c 100 four-track.log >l
refused "vin: l: refused by 2 at bit 784 (byte 98, bit 0, item 28): a status begins here, and the log ends inside it" list l
refused "vin: l: refused by 2 at bit 784 (byte 98, bit 0, item 28): a status begins here, and the log ends inside it" \
    compose four-track.plan l four-track.times -o new
bytes 32 5F 77 F0 >l
refused "vin: l: refused by 2 at bit 25 (byte 3, bit 1, item 2): kind 14 is unknown: the kinds are 1 to 8, and 0 ends the log" list l
refused "vin: four-track.capture: refused by 2 at bit 0 (byte 0, bit 0, item 1): it begins with FAF320, as a capture does, and is no log" \
    list four-track.capture
bytes 00 00 >l
refused "vin: l: refused by 2 at bit 0 (byte 0, bit 0, item 1): the end mark stands here, and more follows it than the zero bits that fill its byte" list l
"${vin[@]}" list <l >out.txt 2>err.txt
[ $? -eq 1 ] && grep -q '^vin: standard input: refused by 2 at bit 0 ' err.txt && [ ! -s out.txt ]
result "a refusal of standard input" $?

# 3
refused "vin: composite.log: refused by 3 at bit 0 (byte 0, bit 0, item 1): a command on bus 0, which the plan does not use" \
    compose four-track.plan composite.log composite.times -o new
plan "$one" "$two" "bus 0 1553" "bus 1 1553" "bus 5 1553"
refused "vin: composite.log: refused by 3 at bit 374 (byte 46, bit 6, item 11): an ARINC word on bus 5, which is MIL-STD-1553 in the plan" \
    compose p composite.log -o new

# 4: P9's micro, and a response
bytes 12 42 10 FF FF FF FF E7 10 00 >l
refused "vin: l: refused by 4 at bit 0 (byte 0, bit 0, item 1): a command on bus 2 whose micro is 10000: it must be below 10000" list l
bytes 32 5F 77 91 20 00 1F FF 80 >l
refused "vin: l: refused by 4 at bit 25 (byte 3, bit 1, item 2): a status on bus 2 whose response is 16383: it must be below 10000" \
    compose four-track.plan l four-track.times -o new

# 5
refused "vin: four-track.log: refused by 5 at 2: the plan has frame time, and no file of times is named; needed: 2, one a group" \
    compose four-track.plan four-track.log -o new
refused "vin: composite.times: refused by 5 at 2: frame times needed: 2, one a group; given: 3" \
    compose four-track.plan four-track.log composite.times -o new
printf '%s\n' 0 42949672959999 >t
done_by compose four-track.plan four-track.log t -o new
printf '%s\n' 0 42949672960000 >t
refused "vin: t:2: refused by 5 at time 1 (counted from 0): 42949672960000 microseconds, and times are below 42949672960000" \
    compose four-track.plan four-track.log t -o new
printf '%s\n' '# two groups' '' 0 '42949672960000 # too late' >t
refused "vin: t:4: refused by 5 at time 1 (counted from 0): 42949672960000 microseconds, and times are below 42949672960000" \
    compose four-track.plan four-track.log t -o new
printf '%s\n' 99999999999999999999999 0 >t
refused "vin: t:1: refused by 5 at time 0 (counted from 0): 99999999999999999999999 microseconds, and times are below 42949672960000" \
    compose four-track.plan four-track.log t -o new
printf '%s\n' 42949672960000 >t
refused "vin: t: refused by 5 at 2: frame times needed: 2, one a group; given: 1" \
    compose four-track.plan four-track.log t -o new
plan "$one" "$two" "bus 2 1553"
refused "vin: four-track.times: refused by 5 at 0: the plan has no frame time and takes no times; given: 2" \
    compose p four-track.log four-track.times -o new
: >t
done_by compose p four-track.log t -o new

# 6: forty captures in a row hold more than a log
for n in {1..40}; do cat composite.capture; done >long
refused "vin: long: refused by 6 at 36441: the log would have 36441 bytes, and a log has at most 32768" \
    read composite.plan long -o new

# 8
head -c 1600 four-track.capture >bad
refused "vin: bad: refused by 8 at 1600: 1600 bytes are not whole groups of 1548 bytes; left over: 52" read four-track.plan bad -o new
head -c 1048577 /dev/zero >long
too_long="vin: long: refused by 8 at 1048577: the capture has 1048577 bytes, and at most 1048576 are read
vin: long: hint: vin follow reads a capture of any length; or cut it into pieces of whole groups (split -b 1047996): an item that lies across a cut is lost"
refused "$too_long" check four-track.plan long
refused "$too_long" dump four-track.plan long
"${vin[@]}" check four-track.plan - <<<"" 2>err.txt
[ $? -eq 1 ] && grep -qx 'vin: standard input: refused by 8 at 1: 1 bytes are not whole groups of 1548 bytes; left over: 1' err.txt
result "8 of standard input" $?
cat long long | "${vin[@]}" check four-track.plan - 2>err.txt
printf '%s\n' "vin: standard input: refused by 8 at 1048577: the capture has more than 1048576 bytes" \
    "vin: standard input: hint: vin follow reads a capture of any length; or cut it into pieces of whole groups (split -b 1047996): an item that lies across a cut is lost" >want
same "8 of a pipe" want err.txt

# 9, 11: on tracks; 10, 12: with parity
patched four-track.capture 129 "FAF321"
refused "vin: bad: refused by 9 at word 129 (group 0, track 2, word 1): FAF321: the sync word FAF320 belongs here" \
    read four-track.plan bad -o new
patched four-track.capture 1000 "2D0000"
refused "vin: bad: refused by 11 at word 1031 (group 1, track 4, word 129): 03B3B4: the CRC word of the words before it in its frame is 03889A" \
    check four-track.plan bad
patched composite.capture 200 "000003"
refused "vin: bad: refused by 10 at word 200 (group 1, track 1, word 72): 000003: it has 2 ones, an even number, and the plan has parity" \
    read composite.plan bad -o new
patched composite.capture 1 "860000"
refused "vin: bad: refused by 12 at word 1 (group 0, track 1, word 2): 860000: it has bus 0 and label 6; the frame time's high word has bus 0 and label 7" \
    read composite.plan bad -o new
patched composite.capture 132 "052710"
refused "vin: bad: refused by 12 at word 132 (group 1, track 1, word 4): 052710: the frame time's micro is 10000; it must be below 10000" \
    read composite.plan bad -o new

# 13, 14 and 15: words.sh; 17: shift.sh; 18: profile.sh; 19: replay.sh

# What a number means: each has its page, and no other number has.
for n in {0..20}; do
    "${vin[@]}" explain $n >out.txt
    result "explain $n" $?
    head -n 1 out.txt >have
    "${vin[@]}" explain | sed -n "s/^ *$n  /$n: /p" >want
    same "explain $n" want have
done
for n in 21 99 -- x 99999999999999999999 1x; do
    [ "$n" = -- ] || misuse "vin: no refusal has the number $n; vin explain lists them" explain "$n"
done
rm -f p l t bad long out.txt err.txt have want new
