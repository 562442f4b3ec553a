# dump, info, and the other forms of list.
head_line="  place  group track word  offset   word    bus label info  what              item"
says 0 "$head_line
    259      0     3    2  0x000309 050000    0     5    0  frame time micro  at 36000000000
    388      0     4    2  0x00048C 2F2C38    2    15 2C38  command A         1
      2      0     1    3  0x000006 270036    2     7   36  time high         1+
    131      0     2    3  0x000189 26EE80    2     6 EE80  time low          1+
    260      0     3    3  0x00030C 250000    2     5    0  time micro        1+  at 36000000000
    389      0     4    3  0x00048F 240008    2     4    8  response time     2
      3      0     1    4  0x000009 2E2800    2    14 2800  status A          2+" dump four-track.plan four-track.capture --from 259 --count 7
says 0 "$head_line
    128      0     1  129  0x000180 03F8D8    0     3 F8D8  CRC
    129      0     2    1  0x000183 FAF320                  sync
    130      0     2    2  0x000186 06EE80    0     6 EE80  frame time low" dump four-track.plan four-track.capture --stored --from 128 --count 3
says 0 "$head_line" dump four-track.plan four-track.capture --faults
# Every word once, in both orders; the stored order is that of the places, and the words are the file's.
for sample in four-track composite; do
    words=$(($(stat -c %s $sample.capture) / 3))
    "${vin[@]}" dump $sample.plan $sample.capture | tail -n +2 >dealt
    "${vin[@]}" dump $sample.plan $sample.capture --stored | tail -n +2 >stored
    sort -n dealt | cmp -s - stored && [ "$(wc -l <stored)" -eq $words ]
    result "$sample: dealt and stored lines are the same" $?
    awk '{ printf "%s", $6 }' stored | tr -d '\n' >have
    od -An -v -tx1 $sample.capture | tr -d ' \n' | tr a-f A-F >want
    same "$sample: the words are the capture's" want have
    # The items' first words, in dealt order, and the tags are the listing's.
    awk '{ for (n = 12; n <= NF; n++) if ($n == "at" && $0 !~ /frame time/) print $(n + 1) }' dealt >have
    sed -n 's/.* at //p' $sample.txt >want
    same "$sample: the tags of the dump are the listing's" want have
    grep -v ' at [0-9]*$' dealt | grep -o '[0-9]*$' | sort -n >have
    seq 1 "$(grep -vc '^end' $sample.txt)" >want
    same "$sample: the items of the dump are the listing's" want have
    awk '/frame time micro/ { print $NF }' dealt >have
    same "$sample: the frame times of the dump are the capture's" $sample.times have
    "${vin[@]}" dump $sample.plan $sample.capture --no-fill | tail -n +2 >have
    grep -v ' fill$' dealt >want
    same "$sample: --no-fill" want have
    "${vin[@]}" dump $sample.plan $sample.capture --group 1 | tail -n +2 >have
    awk '$2 == 1' dealt >want
    same "$sample: --group 1" want have
done
"${vin[@]}" dump composite.plan composite.capture --bus 5 --no-fill | tail -n +2 >have
awk '$7 == 5 && $9 != "" && !/frame time|sync/' dealt >want
same "--bus 5" want have
[ "$(wc -l <have)" -gt 100 ]
result "--bus 5 has lines" $?

"${vin[@]}" dump composite.plan composite.capture --bus 0 | tail -n +2 >have
awk '$7 == 0 && !/frame time/' dealt >want
same "--bus 0 has the data slots, not the frame time" want have

# Faults stand in their line, all of them, in dealt order.
cp four-track.capture bad
for change in 645:FAF321 520:2D0000 517:040000 390:250000 770:31AAAA; do
    bytes "${change#*:}" | dd of=bad bs=1 seek=$((3 * ${change%:*})) conv=notrunc status=none
done
says 0 "$head_line
    390      0     4    4  0x000492 250000    2     5    0  time micro        !13 time micro on bus 2: no time low stands before it
    515      0     4  129  0x000609 03F839    0     3 F839  CRC               !11 expected 034B06
    645      1     2    1  0x00078F FAF321                  sync              !9 expected FAF320
    517      1     1    2  0x00060F 040000    0     4    0  frame time high   !12 expected bus 0 and label 7
    644      1     1  129  0x00078C 03A3DA    0     3 A3DA  CRC               !11 expected 036FBD
    773      1     2  129  0x00090F 03F782    0     3 F782  CRC               !11 expected 032994" dump four-track.plan bad --faults
# Misplaced fill, all of it, in a capture that is right else; fill that is none.
plan "words 129" "tracks 2" "bus 2 1553"
fill=$(printf '01AAAA%.0s' {1..128})
frame() { printf 'FAF320%s%s' "$1" "${fill:${#1}}"; }
bytes "$(frame 2D000101AAAA)$(frame 31AAAA2D0002)$(frame "")$(frame 41AAAA)" >bad
"${vin[@]}" dump p bad --faults >have
grep -c '!14 its group is after the last data word.s$' have | grep -qx 255
result "fill after the last data, marked" $?
grep -v 'its group' have >few
echo "$head_line
    130      0     2    2  0x000186 31AAAA    3     1 AAAA  fill              !14 its bus is 3 and not 0
      2      0     1    3  0x000006 01AAAA    0     1 AAAA  fill              !14 data follows it
    388      1     2    2  0x00048C 41AAAA    4     1 AAAA  fill              !14 its bus is 4 and not 0" >want
same "misplaced fill" want few
bytes "$(frame 2D000101AAAB)$(frame 01AAAA2D0002)" >bad
says 0 "$head_line
      2      0     1    3  0x000006 01AAAB    0     1 AAAB  fill, not AAAA    !13 it has label 1, fill, and fill is AAAA" dump p bad --faults
rm -f few
plan "words 129" "tracks 1" "parity yes" "bus 2 1553" "bus 5 arinc"
fill=$(printf '01AAAA%.0s' {1..128})
broken=AF0001A70000250001D90001AD0001200000D90000
bytes "FAF320$broken${fill:${#broken}}" >bad
says 0 "$head_line
      0      0     1    1  0x000000 FAF320                  sync
      1      0     1    2  0x000003 AF0001    2    15    1  command A         1
      2      0     1    3  0x000006 A70000    2     7    0  time high         1+
      3      0     1    4  0x000009 250001    2     5    1  time micro        !10 4 ones, an even number
      4      0     1    5  0x00000C D90001    5     9    1  high syllable 1   2  !10 6 ones, an even number
      5      0     1    6  0x00000F AD0001    2    13    1  data A            3  !10 6 ones, an even number
      6      0     1    7  0x000012 200000    2     0    0  overflow          4
      7      0     1    8  0x000015 D90000    5     9    0  high syllable 1   5  !13 high syllable of channel 1 on bus 5: the capture ends before its low one
      8      0     1    9  0x000018 01AAAA    0     1 AAAA  fill" dump p bad --count 9
# Open notices, all of them, in a capture that is right else: one before the channel's next, one at the end; a word between answers.
plan "words 129" "tracks 1" "bus 5 arinc"
open=54980154980259000158000254980354BA0454BA05
bytes "FAF320$open${fill:${#open}}" >bad
says 0 "$head_line
      1      0     1    2  0x000003 549801    5     4 9801  error notice      1  !15 error notice on bus 5 without its ARINC word: the channel's next notice, or the end, comes first
      5      0     1    6  0x00000F 549803    5     4 9803  error notice      4  !15 error notice on bus 5 without its ARINC word: the channel's next notice, or the end, comes first
      6      0     1    7  0x000012 54BA04    5     4 BA04  error notice      5  !15 error notice on bus 5 without its ARINC word: the channel's next notice, or the end, comes first
      7      0     1    8  0x000015 54BA05    5     4 BA05  error notice      6  !15 error notice on bus 5 without its ARINC word: the channel's next notice, or the end, comes first" dump p bad --faults
misuse "vin: dump: --bus 16: a bus is 0 to 15" dump p bad --bus 16
misuse "vin: dump: --group 1: the capture has 1 groups, counted from 0" dump p bad --group 1
misuse "vin: dump: --from 129: the capture has 129 words, counted from 0" dump p bad --from 129
dump="PLAN CAPTURE [--from WORD] [--count N] [--group G] [--bus B] [--stored] [--no-fill] [--faults]"
usage dump "--from -1: a decimal number is needed" "$dump" p bad --from -1
usage dump "--count needs a number" "$dump" p bad --count
# The plan and the length are refused as reading refuses them.
plan "words 127" "tracks 1"
refused "vin: p:1: refused by 1 at 0: words is 127: a frame has 128 to 512 words" dump p bad
refused "vin: bad: refused by 8 at 387: 387 bytes are not whole groups of 1548 bytes; left over: 387" dump four-track.plan bad

# What a capture and a log hold.
says 0 "groups       2 of 4 frames of 129 words, 3096 bytes
frame times  2: 36000000000 to 36000080000, 0.080000 s
data slots   1010: 512 data words, 498 fill, 49.3 %
log          1472 bytes, 403 items
bus 2        31 commands, 31 status words, 340 data words, 1 bus error
time tags    26: 36000000000 to 36000082800, 0.082800 s; steps back: 0" info four-track.plan four-track.capture
composite="log          912 bytes, 158 items
bus 0        14 commands, 14 status words, 56 data words, 1 user word
bus 1        7 commands, 7 status words, 14 data words, 1 overflow mark
bus 5        42 ARINC words, 1 notice, 1 user word
time tags    49: 36000000000 to 36000325640, 0.325640 s; steps back: 0"
says 0 "groups       3 of 1 frame of 129 words, 1161 bytes
frame times  3: 36000000000 to 36000300000, 0.300000 s
data slots   375: 368 data words, 7 fill, 1.9 %
$composite" info composite.plan composite.capture
says 0 "$composite" info composite.log
printf '%s\n' "cmd 2 A 0000 at 5000000" "cmd 2 A 0000 at 4000000" "arn 3 1 00000000 at 4000000" "sta 2 A 0000 resp 1" | "${vin[@]}" pack >l
says 0 "log          35 bytes, 4 items
bus 2        2 commands, 1 status word
bus 3        1 ARINC word
time tags    3: 5000000 to 4000000, -1.000000 s; steps back: 1" info l
bytes 00 >l
says 0 "log          1 byte, 0 items
time tags    none" info l
bytes 32 >l
refused "vin: l: refused by 2 at bit 0 (byte 0, bit 0, item 1): a data word begins here, and the log ends inside it" info l
refused "vin: bad: refused by 8 at 387: 387 bytes are not whole groups of 1548 bytes; left over: 387" info four-track.plan bad

# The forms of list.
printf '%s\n' "cmd 2 A 2C38 at 36000000000" "cmd 2 B 07F1" "cmd 2 A 0820" "sta 2 A 2800 resp 8" "sta 2 B 2800" "dat 2 A BEEF" "err 2 B 8001" \
    "arn 5 1 60C83456 at 600" "arn 5 4 00000001" "are 5 3 21" "usr 0 3 0009" "usr 0 2 0009" "ovf 1 0004" "end 13" >t
done_by pack t -o l
says 0 "$(cat t)" list l
says 0 "$(sed -e '1s/$/  # 05-T-01-24/' -e '2s/$/  # 00-T-31-17 mode/' -e '3s/$/  # 01-R-01-32/' t)" list --decode l
says 0 '{"n":1,"bit":0,"kind":"cmd","bus":2,"side":"A","word":"2C38","at":36000000000}
{"n":2,"bit":72,"kind":"cmd","bus":2,"side":"B","word":"07F1"}
{"n":3,"bit":98,"kind":"cmd","bus":2,"side":"A","word":"0820"}
{"n":4,"bit":124,"kind":"sta","bus":2,"side":"A","word":"2800","resp":8}
{"n":5,"bit":164,"kind":"sta","bus":2,"side":"B","word":"2800"}
{"n":6,"bit":190,"kind":"dat","bus":2,"side":"A","word":"BEEF"}
{"n":7,"bit":215,"kind":"err","bus":2,"side":"B","word":"8001"}
{"n":8,"bit":240,"kind":"arn","bus":5,"channel":1,"word":"60C83456","at":600}
{"n":9,"bit":329,"kind":"arn","bus":5,"channel":4,"word":"00000001"}
{"n":10,"bit":372,"kind":"are","bus":5,"channel":3,"word":"21"}
{"n":11,"bit":390,"kind":"usr","bus":0,"label":3,"word":"0009"}
{"n":12,"bit":415,"kind":"usr","bus":0,"label":2,"word":"0009"}
{"n":13,"bit":440,"kind":"ovf","bus":1,"word":"0004"}' list l --json
says 0 'n,bit,kind,bus,side,channel,label,word,at,resp
1,0,cmd,2,A,,,2C38,36000000000,
2,72,cmd,2,B,,,07F1,,
3,98,cmd,2,A,,,0820,,
4,124,sta,2,A,,,2800,,8
5,164,sta,2,B,,,2800,,
6,190,dat,2,A,,,BEEF,,
7,215,err,2,B,,,8001,,
8,240,arn,5,,1,,60C83456,600,
9,329,arn,5,,4,,00000001,,
10,372,are,5,,3,,21,,
11,390,usr,0,,,3,0009,,
12,415,usr,0,,,2,0009,,
13,440,ovf,1,,,,0004,,' list l --csv
"${vin[@]}" list l --csv --decode | sed -n '1,4p' >have
printf '%s\n' n,bit,kind,bus,side,channel,label,word,at,resp,rt,tr,sa,count,mode 1,0,cmd,2,A,,,2C38,36000000000,,5,T,1,24, 2,72,cmd,2,B,,,07F1,,,0,T,31,,17 \
    3,98,cmd,2,A,,,0820,,,1,R,1,32, >want
same "list --csv --decode" want have
"${vin[@]}" list l --json --decode | sed -n '1,4p' >have
printf '%s\n' '{"n":1,"bit":0,"kind":"cmd","bus":2,"side":"A","word":"2C38","at":36000000000,"rt":5,"tr":"T","sa":1,"count":24}' \
    '{"n":2,"bit":72,"kind":"cmd","bus":2,"side":"B","word":"07F1","rt":0,"tr":"T","sa":31,"mode":17}' \
    '{"n":3,"bit":98,"kind":"cmd","bus":2,"side":"A","word":"0820","rt":1,"tr":"R","sa":1,"count":32}' \
    '{"n":4,"bit":124,"kind":"sta","bus":2,"side":"A","word":"2800","resp":8}' >want
same "list --json --decode" want have
# The bits are the log's: cut there, the log is refused at that bit.
for item in 2 5 9 13; do
    bit=$("${vin[@]}" list l --csv | awk -F, -v n=$item '$1 == n { print $2 }')
    head -c $(((bit + 8) / 8)) l >cut
    "${vin[@]}" list cut 2>err.txt
    grep -q "refused by 2 at bit $bit (.*, item $item)" err.txt
    result "bit $bit of item $item" $?
done
: >want
"${vin[@]}" list --json <(bytes 00) >have
same "no items as JSON" want have
done_by list l -o new
same "list -o" t new
rm -f dealt stored have want bad p l t new cut err.txt
