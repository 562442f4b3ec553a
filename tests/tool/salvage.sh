# Salvage: over the samples, whole and damaged; the report in words and as JSON; what it is refused.
tally() { # NAME KEPT OF GROUPS.. : the line on standard error
    printf 'vin: %s: kept %s of %s; dropped %s, %s' "$1" "$2" "$3" "$4" "$5"
}
for sample in composite four-track; do
    groups=$(wc -l <$sample.times)
    noted "$(tally $sample.capture "$groups" "$groups groups" "0 groups" "0 words")" \
        salvage $sample.plan $sample.capture -o new --times-out t --report r --strict
    same "$sample: nothing is lost" $sample.log new
    same "$sample: times" $sample.times t
    echo "kept $groups of $groups groups; dropped 0 groups, 0 words" >want
    same "$sample: the report" want r
done

# A CRC word in the second group of four tracks: the items of the others, as read has them, are left.
words=$((4 * 129))
patched four-track.capture $((words + 128)) 000000
right=$("${vin[@]}" dump four-track.plan bad --stored --from $((words + 128)) --count 1 | sed -n 's/.*expected //p')
groups=$(wc -l <four-track.times)
"${vin[@]}" salvage four-track.plan bad -o new --times-out t --report r 2>have
result "a damaged group: status" $?
sed 2d four-track.times >want
same "the times of the kept groups" want t
{
    echo "word 514 dropped (group 0, track 4, word 128): 24000A response time on bus 2"
    echo "group 1 dropped: 11 at word $((words + 128)) (group 1, track 1, word 129): 000000: the CRC word of the words before it in its frame is $right"
    echo "kept $((groups - 1)) of $groups groups; dropped 1 group, 1 word"
} >want
same "the report names the half before the group, the group, its fault and where" want r
printf '%s\n' "$(tally bad $((groups - 1)) "$groups groups" "1 group" "1 word")" >want
same "what was kept and dropped" want have
"${vin[@]}" list four-track.log | sed '$d' >all
"${vin[@]}" list new | sed '$d' >have
grep -vxFf all have >want
: >have
same "every item that is left was there" have want
says 1 "$(tally bad $((groups - 1)) "$groups groups" "1 group" "1 word")" \
    salvage four-track.plan bad -o new --times-out t --strict
[ -s new ] && [ -s t ]
result "with --strict the outputs are written all the same" $?
rm -f all

# Each rule, by hand: bus 2 is 1553, bus 5 ARINC.
plan "words 129" "tracks 1" "bus 2 1553" "bus 5 arinc"
left() { # DROPPED-GROUPS WORDS ITEMS REPORT: of the capture in `bad`
    local groups=$(($(wc -c <bad) / 387)) name=groups of
    [ "$groups" -ne 1 ] || name=group
    of="$groups $name"
    noted "$(tally bad $((groups - ${1%% *})) "$of" "$1" "$2")" salvage p bad -o new --report r
    "${vin[@]}" list new | sed '$d' >have
    printf '%s' "$3" >want
    same "items left: $3" want have
    { printf '%s' "$4"; echo "kept $((groups - ${1%% *})) of $of; dropped $1, $2"; } >want
    same "the report: $4" want r
}
bytes "$(group 2F0001 360001 270000 260001 250005)" >bad
left "0 groups" "4 words" "cmd 2 A 0001
" "word 2 dropped (group 0, track 1, word 3): 360001 bus not used on bus 3
word 3 dropped (group 0, track 1, word 4): 270000 time high on bus 2
word 4 dropped (group 0, track 1, word 5): 260001 time low on bus 2
word 5 dropped (group 0, track 1, word 6): 250005 time micro on bus 2
"
bytes "$(group 240008 2D0001 01AAAB)" >bad
left "0 groups" "2 words" "dat 2 A 0001
" "word 1 dropped (group 0, track 1, word 2): 240008 response time on bus 2
word 3 dropped (group 0, track 1, word 4): 01AAAB fill, not AAAA on bus 0
"
bytes "$(group 591234)$(group | sed 's/^FAF320/FAF321/')$(group 585678 2D0001)" >bad
left "1 group" "2 words" "dat 2 A 0001
" "word 1 dropped (group 0, track 1, word 2): 591234 high syllable 1 on bus 5
group 1 dropped: 9 at word 129 (group 1, track 1, word 1): FAF321: the sync word FAF320 belongs here
word 259 dropped (group 2, track 1, word 2): 585678 low syllable 1 on bus 5
"
bytes "$(group 549800)" >bad # open, and kept
left "0 groups" "0 words" "are 5 1 00
" ""
refused "vin: bad: refused by 15 at word 1 (group 0, track 1, word 2): 549800: error notice on bus 5 without its ARINC word: the channel's next notice, or the end, comes first" read p bad -o new
plan "words 129" "tracks 1" "parity yes" "frame-time yes" "bus 2 1553"
bytes "$(group 070000 860000 D50000 2D0001)" >bad
left "1 group" "0 words" "" "group 0 dropped: 12 at word 3 (group 0, track 1, word 4): D50000: it has bus 5 and label 5; the frame time's micro word has bus 0 and label 5
"
bytes "$(group 070000 860000 850000 2D0000)" >bad
left "1 group" "0 words" "" "group 0 dropped: 10 at word 4 (group 0, track 1, word 5): 2D0000: it has 4 ones, an even number, and the plan has parity
"

# As JSON; frame times that are not kept; a pipe.
bytes "$(group 070000 860000 850000 2D0001 240008)$(group 070000 860000 850000 2D0000)" >bad
"${vin[@]}" salvage p bad -o - --report r --json 2>have | "${vin[@]}" list >want
printf '%s\n' "dat 2 A 0001" "end 1" | diff - want >/dev/null
result "in a pipe" $?
printf '%s\n' '{"place":5,"group":0,"track":1,"position":6,"word":"240008","bus":2,"label":4}' \
    '{"group":1,"fault":10,"place":133,"word":"2D0000"}' '{"kept":1,"groups":2,"dropped_groups":1,"dropped_words":1}' >want
same "the report as JSON" want r
noted "$(tally bad 1 "2 groups" "1 group" "1 word")
vin: bad: note: frame times not kept: 1; --times-out FILE writes them" salvage p bad -o new

# A capture of no bytes, and one of another plan, of which nothing is kept.
: >bad
noted "$(tally bad 0 "0 groups" "0 groups" "0 words")" salvage p bad -o new --strict
printf '\0' >want
same "of no bytes the empty log" want new
plan "words 258" "tracks 2" "frame-time yes" "crc yes" "bus 2 1553"
noted "$(tally four-track.capture 0 "2 groups" "2 groups" "0 words")
vin: four-track.capture: note: the sync word FAF320 stands every 129 words; the plan says 258" salvage p four-track.capture -o new
same "of another plan's capture too" want new

# What is refused, and a wrong command line.
plan "words 129" "tracks 1" "parity yes" "frame-time yes" "bus 2 1553"
bytes "$(group 070000 860000 850000 2D0001)$(group 070000 860000 850000 2D0001)" >bad
head -c 773 bad >cut
refused "vin: cut: refused by 8 at 773: 773 bytes are not whole groups of 387 bytes; left over: 386" salvage p cut -o new
plan "words 127" "tracks 1"
refused "vin: p:1: refused by 1 at 0: words is 127: a frame has 128 to 512 words" salvage p bad -o new
plan "words 129" "tracks 1" "bus 2 1553"
bytes "$(yes "$(group | sed 's/01AAAA/2F0001/g')" | head -n 79 | tr -d '\n')" >bad
refused "vin: bad: refused by 6 at 32865: the log would have 32865 bytes, and a log has at most 32768" salvage p bad -o new
usage salvage "no output is named: -o FILE, or -o - for standard output" "PLAN CAPTURE -o LOG [--times-out FILE] [--report FILE [--json]] [--strict]" p bad
misuse "vin: salvage: --json is a form of the report: --report FILE names it" salvage p bad -o new --json
misuse "vin: salvage: -o and --report name the same file" salvage p bad -o new --report ./new
misuse "vin: salvage: bad is also an input" salvage p bad -o new --report bad
rm -f p bad cut new t r have want
unset -f tally left
