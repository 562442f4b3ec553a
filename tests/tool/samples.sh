# The samples: made again they are the same, and every command gives what the others were given.
mkdir made
VIN="${vin[*]}" "$top/examples/make" "$tmp/made"
result "examples/make" $?
for sample in four-track composite; do
    same "$sample: log made from its text" $sample.log made/$sample.log
    same "$sample: capture made again" $sample.capture made/$sample.capture

    says 0 "$(cat $sample.txt)" list $sample.log
    done_by compose $sample.plan $sample.log $sample.times -o new
    same "$sample: composed" $sample.capture new
    done_by read $sample.plan $sample.capture -o new --times new.times
    same "$sample: log read" $sample.log new
    same "$sample: times read" $sample.times new.times
    noted "vin: $sample.capture: note: frame times not kept: $(wc -l <$sample.times); --times-out FILE writes them" \
        read $sample.plan $sample.capture -o new
    same "$sample: log read without times" $sample.log new
    done_by compose $sample.plan $sample.log --times $sample.times -o new
    same "$sample: composed with --times" $sample.capture new
    done_by read $sample.plan $sample.capture -o new --times-out new.times
    same "$sample: log read with --times-out" $sample.log new
    same "$sample: times read with --times-out" $sample.times new.times

    "${vin[@]}" compose $sample.plan - $sample.times -o - <$sample.log | "${vin[@]}" read $sample.plan - -o - | "${vin[@]}" list >new
    same "$sample: through pipes" $sample.txt new
    "${vin[@]}" read $sample.plan $sample.capture -o - 2>err.txt | cmp -s - $sample.log && [ ! -s err.txt ]
    result "$sample: read into a pipe, without a note" $?
    "${vin[@]}" compose - $sample.log $sample.times -o - <$sample.plan | cmp -s - $sample.capture
    result "$sample: plan from standard input" $?
    "${vin[@]}" compose $sample.plan $sample.log - -o new <$sample.times && cmp -s new $sample.capture
    result "$sample: times from standard input" $?
    "${vin[@]}" read $sample.plan $sample.capture -o new --times=- | cmp -s - $sample.times
    result "$sample: times to standard output" $?
    (sleep 0.05; head -c 7 $sample.log; sleep 0.05; tail -c +8 $sample.log) | "${vin[@]}" list - | cmp -s - $sample.txt
    result "$sample: a log that comes in pieces" $?
    rm -f new new.times
done
rm -r made
says 0 "yes: a log of 1472 bytes, frame times: 2" check four-track.plan four-track.capture
says 0 "yes: a log of 912 bytes, frame times: 3" check composite.plan composite.capture

# The empty log and the capture of no bytes.
bytes 00 >empty.log
: >none
says 0 "end 0" list empty.log
done_by compose four-track.plan empty.log -o new
same "the empty log" none new
"${vin[@]}" check four-track.plan none >have 2>err.txt
result "an empty capture: status" $?
echo "yes: a log of 1 byte, frame times: 0" >want
same "an empty capture" want have
echo "vin: none: note: the capture has no bytes: that is the capture of an empty log" >want
same "an empty capture: the note" want err.txt
noted "vin: none: note: the capture has no bytes: that is the capture of an empty log" read four-track.plan none -o new
same "no bytes" empty.log new

# The plan's picture.
says 0 "legal
  words       129 in a frame, the sync word counted
  tracks      4 in a group
  frame time  yes: three words open every group
  CRC         yes: the last word of every frame, with label 3
  parity      no
  fill        on bus 0
  bus 2       MIL-STD-1553

505 slots for data in a group, 1548 bytes a group

A group as it is stored, track by track; d1, d2, .. are its data slots in the order they are filled:

           word 1    word 2    word 3    word 4    word 5    ..  word 127  word 128  word 129
  track 1  sync      high      d2        d6        d10       ..  d498      d502      CRC
  track 2  sync      low       d3        d7        d11       ..  d499      d503      CRC
  track 3  sync      micro     d4        d8        d12       ..  d500      d504      CRC
  track 4  sync      d1        d5        d9        d13       ..  d501      d505      CRC" plan four-track.plan
says 0 "legal
  words       129 in a frame, the sync word counted
  tracks      1 in a group
  frame time  yes: three words open every group
  CRC         no
  parity      yes: bit 1 of every word but the sync word
  fill        on bus 0
  bus 0       MIL-STD-1553
  bus 1       MIL-STD-1553
  bus 5       ARINC 429

125 slots for data in a group, 387 bytes a group

A group as it is stored, track by track; d1, d2, .. are its data slots in the order they are filled:

           word 1    word 2    word 3    word 4    word 5    ..  word 127  word 128  word 129
  track 1  sync      high      low       micro     d1        ..  d123      d124      d125" plan composite.plan
plan "words 128" "tracks 1" "parity yes" "crc yes" "crc-label 6" "fill-bus 7"
"${vin[@]}" plan p | sed -n '2,7p' >have
printf '%s\n' "  words       128 in a frame, the sync word counted" "  tracks      1 in a group" "  frame time  no" \
    "  CRC         yes: the last word of every frame, with label 6" "  parity      yes: bit 1 of every word but the sync word" \
    "  fill        on bus 7" >want
same "a plan with a label and a fill bus" want have
plan "words 511" "tracks 2" "crc yes" "" "# only a comment" "	bus	15	arinc	# tabs" "frame-time no"
"${vin[@]}" plan p | sed -n '/track/p' >have
printf '%s\n' "  tracks      2 in a group" \
    "A group as it is stored, track by track; d1, d2, .. are its data slots in the order they are filled:" \
    "  track 1  sync      d1        d3        d5        d7        ..  d1015     d1017     CRC" \
    "  track 2  sync      d2        d4        d6        d8        ..  d1016     d1018     CRC" >want
same "two tracks" want have
printf 'words 129\r\ntracks 1\r\nbus 3 1553\r\n' >p
"${vin[@]}" plan p | grep -q '128 slots for data in a group, 387 bytes a group'
result "lines that end in carriage return and line feed" $?
rm -f have want new none empty.log p err.txt
