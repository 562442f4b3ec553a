# Refusals 13, 14 and 15 name their cause; what looks like another plan is told.
plan "words 129" "tracks 1" "bus 2 1553" "bus 5 arinc"
at1="word 1 (group 0, track 1, word 2)" at2="word 2 (group 0, track 1, word 3)" at3="word 3 (group 0, track 1, word 4)"
at4="word 4 (group 0, track 1, word 5)"
breaks() { # PLACE TEXT WORD..: a capture of these words is refused by 13
    local place=$1 text=$2
    shift 2
    bytes "$(group "$@")" >bad
    refused "vin: bad: refused by 13 at $place: $text" read p bad -o new
}
# The six of the review, each with what was awaited and the unfinished item's first word.
breaks "$at4" "25FFFF: micro is 65535: it must be below 10000; it would end the time of the command at $at1" 2F0001 270000 260001 25FFFF
breaks "$at1" "24FFFF: response is 65535: it must be below 10000" 24FFFF 2E0001
breaks "$at1" "54FF00: error notice on bus 5: its labels F and F are not one channel's pair" 54FF00
breaks "$at2" "2F0001: command A on bus 2: a response time at $at1 waits for its status on bus 2" 240008 2F0001
breaks "$at2" "5C5678: low syllable of channel 3 behind the high syllable of channel 4 at $at1" 5F1234 5C5678
breaks "$at1" "5F1234: high syllable of channel 4 on bus 5: the capture ends before its low one" 5F1234
# The others.
breaks "$at2" "2D0001: data A on bus 2: the high syllable of channel 4 at $at1 waits for its low one on bus 5" 5F1234 2D0001
breaks "$at4" "570001: time high on bus 5: the time of the ARINC word at $at1 waits for its low word on bus 5" 5F1234 5E0001 570001 570001
breaks "$at4" "260000: time low on bus 2: the time of the command A at $at1 waits for its micro word on bus 2" 2F0001 270001 260000 260000
breaks "$at3" "360001: it is on bus 3, which the plan does not use; the time of the command A at $at1 waits for its low word on bus 2" 2F0001 270000 360001
breaks "$at1" "7D0001: it is on bus 7, which the plan does not use" 7D0001
breaks "$at1" "010000: it has label 1, fill, and fill is AAAA" 010000
breaks "$at2" "010000: it has label 1, fill, and fill is AAAA; a response time at $at1 waits for its status on bus 2" 240001 010000
breaks "$at2" "570000: time high on bus 5: no ARINC word of that bus stands before it" 2F0001 570000
breaks "$at2" "270000: time high on bus 2: no command of that bus stands before it" 2D0001 270000
breaks "$at1" "260000: time low on bus 2: no time high stands before it" 260000
breaks "$at1" "250000: time micro on bus 2: no time low stands before it" 250000
breaks "$at1" "580000: low syllable of channel 1 on bus 5: no high one stands before it" 580000
breaks "$at1" "240001: response time on bus 2: the capture ends before its status" 240001
breaks "$at1" "2B0001: command B on bus 2: the capture ends before the low word of its time" 2B0001 270001
breaks "$at1" "590001: ARINC word on bus 5: the capture ends before the micro word of its time" 590001 580000 570001 560001
# Fill between an item's words is nothing; over the tracks the first word may have the larger place.
breaks "$at3" "2D0001: data A on bus 2: a response time at $at1 waits for its status on bus 2" 240001 01AAAA 2D0001
cp p one
plan "words 129" "tracks 2" "bus 2 1553"
bytes "$(group 2D0001 270001)$(group 2F0001 2D0001)" >bad
refused "vin: bad: refused by 13 at word 131 (group 0, track 2, word 3): 2D0001: data A on bus 2: the time of the command A at word 130 (group 0, track 2, word 2) waits for its low word on bus 2" \
    check p bad
bytes "$(group 2D0001 2D0001)$(group 240001 2E0001)" >bad
refused "vin: bad: refused by 13 at word 2 (group 0, track 1, word 3): 2D0001: data A on bus 2: a response time at word 130 (group 0, track 2, word 2) waits for its status on bus 2" \
    check p bad
# Both places, on 2, 3 and 4 tracks: user words, then a response on the last track, and a data word on the first, whose place is smaller;
# and the response cut at the end, whose places are one.
for tracks in 2 3 4; do
    plan "words 129" "tracks $tracks" "bus 2 1553"
    first="word $((129 * (tracks - 1) + 1)) (group 0, track $tracks, word 2)"
    others=
    for ((n = 2; n < tracks; n++)); do others+=$(group 220001); done
    bytes "$(group 220001 2D0001)$others$(group 240001)" >bad
    refused "vin: bad: refused by 13 at word 2 (group 0, track 1, word 3): 2D0001: data A on bus 2: a response time at $first waits for its status on bus 2" \
        read p bad -o new
    bytes "$(group 220001)$others$(group 240001)" >bad
    refused "vin: bad: refused by 13 at $first: 240001: response time on bus 2: the capture ends before its status" check p bad
    bytes "$(group 2F0001 270001)$others$(group 220001)" >bad # the command is finished: both places are the time word's
    refused "vin: bad: refused by 13 at word 2 (group 0, track 1, word 3): 270001: time high on bus 2: no command of that bus stands before it" \
        read p bad -o new
done
mv one p

# 14: which of the three.
bytes "$(group 2D0001 01AAAA 2D0002)" >bad
refused "vin: bad: refused by 14 at $at2: 01AAAA: misplaced fill: data follows it, 2D0002 at $at3" check p bad
done_by read p bad -o new
bytes "$(group 2D0001)$(group)" >bad
refused "vin: bad: refused by 14 at word 130 (group 1, track 1, word 2): 01AAAA: misplaced fill: neither its group nor a later one has a data word" check p bad
bytes "$(group 2D0001 31AAAA)" >bad
refused "vin: bad: refused by 14 at $at2: 31AAAA: misplaced fill: its bus is 3 and not 0" check p bad
bytes "$(group 01AAAA)$(group 2D0001)" >bad
refused "vin: bad: refused by 14 at $at1: 01AAAA: misplaced fill: data follows it, 2D0001 at word 130 (group 1, track 1, word 2)" check p bad
bytes "$(group 2D0001 | sed 's/01AAAA/31AAAA/g')" >bad
refused "vin: bad: refused by 14 at $at2: 31AAAA: misplaced fill: its bus is 3 and not 0
vin: bad: hint: the bus of every fill word is 3; was the capture made with fill-bus 3?" check p bad
noted "vin: bad: note: the bus of every fill word is 3; was the capture made with fill-bus 3?" read p bad -o new
echo "fill-bus 3" >>p
says 0 "yes: a log of 4 bytes, frame times: 0" check p bad
bytes "$(group 2D0001 | sed 's/01AAAA/31AAAA/g; s/31AAAA/01AAAA/2')" >bad
refused "vin: bad: refused by 14 at $at3: 01AAAA: misplaced fill: its bus is 0 and not 3" check p bad
"${vin[@]}" dump p bad --faults | grep -q "fill              !14 its bus is 0 and not 3"
result "the dump judges fill by the plan's bus" $?
sed -i '$d' p

# 15: an error notice without its ARINC word, in a capture and in a log; with it, both ways.
open="on bus 5 without its ARINC word: the channel's next notice, or the end, comes first"
bytes "$(group 549800)" >bad
refused "vin: bad: refused by 15 at $at1: 549800: error notice $open" read p bad -o new
refused "vin: bad: refused by 15 at $at1: 549800: error notice $open" check p bad
bytes "$(group 2D0001 549800 549801 591234 585678)" >bad
refused "vin: bad: refused by 15 at $at2: 549800: error notice $open" read p bad -o new
bytes "$(group 549800 591234 585678)" >bad
done_by read p bad -o new
printf '%s\n' "are 5 1 00" "arn 5 1 12345678" | "${vin[@]}" pack >l
same "a notice and its word, read" l new
done_by compose p l -o new
same "a notice and its word, composed" bad new
echo "are 5 1 00" | "${vin[@]}" pack >l
refused "vin: l: refused by 15 at bit 0 (byte 0, bit 0, item 1): an ARINC notice $open" compose p l -o new
printf '%s\n' "dat 2 A 0001" "are 5 1 00" "are 5 1 01" "arn 5 1 12345678" | "${vin[@]}" pack >l
refused "vin: l: refused by 15 at bit 25 (byte 3, bit 1, item 2): an ARINC notice $open" compose p l -o new

# The CRC word and the frame time between are no data. The right CRC word is what the dump expects.
plan "words 129" "tracks 1" "frame-time yes" "crc yes" "bus 2 1553"
for n in {1..200}; do echo "dat 2 A 0001"; done | "${vin[@]}" pack >l
printf '%s\n' 1 2 >t
done_by compose p l --times t -o c
patched c 127 01AAAA
mv bad c
patched c 128 "$("${vin[@]}" dump p c --faults | sed -n 's/.*!11 expected //p')"
refused "vin: bad: refused by 14 at word 127 (group 0, track 1, word 128): 01AAAA: misplaced fill: data follows it, 2D0001 at word 133 (group 1, track 1, word 5)" check p bad

# The label of the CRC word and the bus of fill: what is composed by them reads back, and by no other label; label 1 reads as fill in no
# data slot.
for n in {100..299}; do echo "dat 2 A 0$n"; done | "${vin[@]}" pack >l
for label in {0..7}; do for parity in no yes; do
    plan "words 129" "tracks 1" "crc yes" "parity $parity" "crc-label $label" "fill-bus $((7 - label))" "bus 2 1553"
    done_by compose p l -o c
    done_by read p c -o new
    same "crc-label $label, parity $parity" l new
    says 0 "yes: a log of $(wc -c <l) bytes, frame times: 0" check p c
    "${vin[@]}" dump p c --no-fill | awk '$10 == "CRC" { print $7, $8 }' | sort -u >have
    echo "0 $label" >want
    same "the CRC words have bus 0 and label $label" want have
    "${vin[@]}" dump p c | awk '$10 == "fill" { print $7, $8, $9 }' | sort -u >have
    echo "$((7 - label)) 1 AAAA" >want
    same "fill has bus $((7 - label))" want have
done; done
plan "words 129" "tracks 1" "crc yes" "crc-label 5" "bus 2 1553"
done_by compose p l -o c
plan "words 129" "tracks 1" "crc yes" "bus 2 1553"
word=$("${vin[@]}" dump p c --faults | sed -n 's/.*!11 expected //p' | head -n 1)
refused "vin: c: refused by 11 at word 128 (group 0, track 1, word 129): 05${word#03}: the CRC word of the words before it in its frame is $word
vin: c: hint: the last word of every frame is the CRC word of its frame with label 5; was the capture made with crc-label 5?" read p c -o new
plan "words 129" "tracks 1" "bus 2 1553"
refused "vin: c: refused by 13 at word 128 (group 0, track 1, word 129): 05${word#03}: it is on bus 0, which the plan does not use
vin: c: hint: the last data slot of every frame holds the CRC word of its frame; was the capture made with crc yes and crc-label 5?" read p c -o new
rm -f have want

# Another plan: CRC words in data slots are accepted where bus 0 is used, and told.
plan "words 129" "tracks 1" "crc yes" "bus 0 1553"
for n in {1..300}; do echo "dat 0 A 0F0F"; done >t
done_by pack t -o l
done_by compose p l -o c
crc="the last data slot of every frame holds the CRC word of its frame; was the capture made with crc yes?"
plan "words 129" "tracks 1" "bus 0 1553"
noted "vin: c: note: $crc" read p c -o new
grep -c '^usr 0 3 ' <("${vin[@]}" list new) | grep -qx 3
result "the CRC words are in the log as user words" $?
refused "vin: c: refused by 14 at word 305 (group 2, track 1, word 48): 01AAAA: misplaced fill: data follows it, 037FB9 at word 386 (group 2, track 1, word 129)
vin: c: hint: $crc" check p c
plan "words 129" "tracks 1" "bus 2 1553"
refused "vin: c: refused by 13 at $at1: 0D0F0F: it is on bus 0, which the plan does not use
vin: c: hint: $crc" read p c -o new
# One frame of three damaged.
patched c 200 0D0000
plan "words 129" "tracks 1" "bus 0 1553"
noted "vin: bad: note: ${crc/every frame/2 of 3 frames}" read p bad -o new
# Frame time in data slots.
plan "words 129" "tracks 1" "frame-time yes" "bus 2 1553"
echo "dat 2 A 0001" | "${vin[@]}" pack >l
echo 36000000000 >t
done_by compose p l --times t -o c
plan "words 129" "tracks 1" "bus 2 1553"
refused "vin: c: refused by 13 at $at1: 070036: it is on bus 0, which the plan does not use
vin: c: hint: the first data slots of every group hold a frame time; was the capture made with frame-time yes?" read p c -o new
# The distance of the sync words.
plan "words 200" "tracks 1" "bus 15 1553"
for n in {1..500}; do echo "dat 15 A 0001"; done | "${vin[@]}" pack >l
done_by compose p l -o c
plan "words 129" "tracks 1" "bus 15 1553"
refused "vin: c: refused by 8 at 1800: 1800 bytes are not whole groups of 387 bytes; left over: 252
vin: c: hint: the sync word FAF320 stands every 200 words; the plan says 129" read p c -o new
plan "words 150" "tracks 1" "bus 15 1553"
refused "vin: c: refused by 9 at word 150 (group 1, track 1, word 1): FD0001: the sync word FAF320 belongs here
vin: c: hint: the sync word FAF320 stands every 200 words; the plan says 150" read p c -o new
plan "words 300" "tracks 1" "bus 15 1553"
refused "vin: c: refused by 9 at word 300 (group 1, track 1, word 1): FD0001: the sync word FAF320 belongs here
vin: c: hint: the sync word FAF320 stands every 200 words; the plan says 300" read p c -o new
# A frame twice as long: the sync word in the midst is a status B of bus 15, and all is accepted.
plan "words 400" "tracks 1" "bus 15 1553"
cat c c >cc
noted "vin: cc: note: the sync word FAF320 stands every 200 words; the plan says 400" read p cc -o new
# Parity.
plan "words 129" "tracks 1" "parity yes" "bus 2 1553"
for n in {10..60}; do echo "dat 2 A 00$n"; done | "${vin[@]}" pack >l
done_by compose p l -o c
plan "words 129" "tracks 1" "bus 2 1553"
refused "vin: c: refused by 13 at $at2: AD0011: it is on bus 10, which the plan does not use
vin: c: hint: every word has an odd number of ones; was the capture made with parity yes?" read p c -o new
# One damaged word of a right plan is no other plan.
patched four-track.capture 129 FAF321
refused "vin: bad: refused by 9 at word 129 (group 0, track 2, word 1): FAF321: the sync word FAF320 belongs here" read four-track.plan bad -o new
rm -f p l t c cc bad new
