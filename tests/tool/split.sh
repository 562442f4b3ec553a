# The two halves of a reading: read is words and then items, over the samples and over what read refuses.
for sample in composite four-track; do
    done_by words $sample.plan $sample.capture -o w --times-out t
    done_by items $sample.plan w -o new
    same "$sample: words and then items" $sample.log new
    same "$sample: times" $sample.times t
    done_by words $sample.plan $sample.capture --text -o wt
    done_by items $sample.plan wt -o new
    same "$sample: the same by text" $sample.log new
    od -An -v -tx1 -w4 w | sed 's/ //g; s/^00//' | tr a-f A-F >have
    same "$sample: the words as bytes and as text" wt have
    # the data slots of the dump, in its order
    "${vin[@]}" dump $sample.plan $sample.capture | awk 'NR > 1 && $0 !~ /  (sync|CRC|frame time) ?/ { print $6 }' >have
    same "$sample: the words are the dump's data slots" have wt
done
"${vin[@]}" words composite.plan composite.capture -o - | "${vin[@]}" items composite.plan - -o - >new
same "in a pipe" composite.log new

# What the first half says of frames, read says too; of the words themselves it says nothing.
patched four-track.capture 388 000000
refused "vin: bad: refused by 11 at word 515 (group 0, track 4, word 129): $("${vin[@]}" dump four-track.plan four-track.capture --stored --from 515 --count 1 | awk 'END { print $6 }'): the CRC word of the words before it in its frame is $("${vin[@]}" dump four-track.plan bad --stored --from 515 --count 1 | sed -n 's/.*expected //p')" \
    words four-track.plan bad -o new
plan "words 129" "tracks 1" "bus 2 1553" "bus 5 arinc"
bytes "$(group 2D0001 7D0001)" >bad
done_by words p bad -o w
refused "vin: w: refused by 13 at word 1 (byte 4): 7D0001: it is on bus 7, which the plan does not use" items p w -o new
refused "vin: bad: refused by 13 at word 2 (group 0, track 1, word 3): 7D0001: it is on bus 7, which the plan does not use" read p bad -o new
head -c 386 bad >cut
refused "vin: cut: refused by 8 at 386: 386 bytes are not whole groups of 387 bytes; left over: 386" words p cut -o new

# Places are counted in the words, with the line of a text.
not() { # PLACE TEXT WORD..: these words are refused by 13
    printf '%s\n' "# words" "" "${@:3}" >w
    refused "vin: w: refused by 13 at $1: $2" items p w -o new
}
not "word 1 (line 4)" "2D0001: data A on bus 2: a response time at word 0 waits for its status on bus 2" 240008 2D0001
not "word 1 (line 4)" "240008: response time on bus 2: the words end before its status" 2D0001 240008
not "word 0 (line 3)" "2F0001: command A on bus 2: the words end before the low word of its time" 2F0001 270001
not "word 1 (line 4)" "1000000: it is above 24 bits" 2D0001 1000000
not "word 1 (line 4)" "101AAAA: it is above 24 bits" 2D0001 101AAAA
printf '%s\n' 549800 549801 591234 585678 >w
refused "vin: w: refused by 15 at word 0 (line 1): 549800: error notice on bus 5 without its ARINC word: the channel's next notice, or the end, comes first" items p w -o new
printf '2D0001 # the first\r\n\n01aaaa\n2d0002\n' >w
done_by items p w -o new
printf '%s\n' "dat 2 A 0001" "dat 2 A 0002" | "${vin[@]}" pack >want
same "a text with comments and fill" want new
: >w
done_by items p w -o new
printf '\0' >want
same "no words" want new
plan "words 129" "tracks 1" "parity yes" "bus 2 1553"
printf '%s\n' AD0001 2D0001 >w
done_by items p w -o new
printf '%s\n' "dat 2 A 0001" "dat 2 A 0001" | "${vin[@]}" pack >want
same "no notice is taken of the parity bit" want new
yes 01AAAA | head -n 349525 >w
done_by items p w -o new
echo 01AAAA >>w
refused "vin: w: refused by 8 at 349526: there are 349526 words, and at most 349525 are taken" items p w -o new
yes 2D0001 | head -n 10486 >w
refused "vin: w: refused by 6 at 32770: the log would have 32770 bytes, and a log has at most 32768" items p w -o new
plan "words 127" "tracks 1"
refused "vin: p:1: refused by 1 at 0: words is 127: a frame has 128 to 512 words" items p w -o new
refused "vin: p:1: refused by 1 at 0: words is 127: a frame has 128 to 512 words" words p bad -o new

# Words that are none, and a wrong command line.
plan "words 129" "tracks 1"
printf '\0\0\0' >w
misuse "vin: w: 3 bytes are not whole words of four bytes" items p w -o new
for line in "2D00G1" "2D0001 2D0002" "0x2D0001" "123456789"; do
    printf '01AAAA\n%s\n' "$line" >w
    misuse "vin: w:2: \"$line\" is not one word of six hexadecimal digits" items p w -o new
done
misuse "vin: four-track.capture: these are no words: six hexadecimal digits a line, or four bytes a word" items p four-track.capture -o new
usage words "no output is named: -o FILE, or -o - for standard output" "PLAN CAPTURE -o WORDS [--text] [--times-out FILE]" p bad
usage items "no output is named: -o FILE, or -o - for standard output" "PLAN WORDS -o LOG" p w
misuse "vin: words: -o and --times-out name the same file" words p bad -o new --times-out new
misuse "vin: items: w is also an input" items p w -o w
rm -f p w wt t bad cut new have want
