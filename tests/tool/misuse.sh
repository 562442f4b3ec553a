# What is no command, no plan and no time, each told with what to do.
compose="PLAN LOG [--times FILE] -o CAPTURE" read="PLAN CAPTURE -o LOG [--times-out FILE]"
misuse "vin: no command compsoe; did you mean compose? vin --help lists them" compsoe a b
misuse "vin: no command chek; did you mean check? vin --help lists them" chek
misuse "vin: no command frobnicate; vin --help lists them" frobnicate
misuse "vin: no command lsit; did you mean list? vin --help lists them" help lsit
usage compose "an argument is missing" "$compose" -o new
usage compose "no output is named: -o FILE, or -o - for standard output" "$compose" four-track.plan four-track.log
usage compose "one argument too many: d" "$compose" a b c d -o new
usage compose "unknown option -x" "$compose" -x
usage compose "unknown option -x" "$compose" -xo new
usage read "--times needs a file" "$read" a b -o c --times
usage list "takes no --times" "[LOG] [--json | --csv] [--decode] [-o TEXT]" a --times c
usage list "--json takes no value" "[LOG] [--json | --csv] [--decode] [-o TEXT]" a --json=c
misuse "vin: list: --json and --csv exclude each other" list four-track.log --json --csv
misuse "vin: compose: the times are named twice: --times and a third file" compose four-track.plan four-track.log four-track.times --times four-track.times -o new
misuse "vin: read: --times is an old name of --times-out; one of them is enough" read composite.plan composite.capture -o new --times a --times-out b
usage compose "-o needs a file" "$compose" a b -o
usage compose "-o is given twice" "$compose" a b -o c -o d
usage read "unknown option --time-table" "$read" a b --time-table c
usage read "--times is given twice" "$read" a b --times c --times d -o e
usage check "takes no -o" "PLAN CAPTURE" a b -o c
misuse "vin: compose: standard input can be read only once" compose - - -o new
misuse "vin: compose: standard input can be read only once" compose four-track.plan - --times /dev/stdin -o new
"${vin[@]}" >out.txt 2>err.txt
[ $? -eq 2 ] && [ ! -s out.txt ] && grep -q 'vin compose PLAN LOG' err.txt
result "vin alone" $?
for words in --help -h help; do
    "${vin[@]}" $words >out.txt 2>err.txt
    [ $? -eq 0 ] && [ ! -s err.txt ] && grep -q 'vin compose PLAN LOG' out.txt
    result "vin $words" $?
done
# Each command's own page: its usage, the same however it is asked for, and in the list of all.
commands="compose read words items follow salvage check dump info list pack pick join shift profile replay plan explain"
"${vin[@]}" --help | sed -n 's/^  vin \([a-z]*\) .*/\1/p' | tr '\n' ' ' >out.txt
printf '%s ' $commands >want.txt
same "the commands of vin --help" want.txt out.txt
for command in $commands; do
    "${vin[@]}" $command --help >out.txt 2>err.txt
    [ $? -eq 0 ] && [ ! -s err.txt ] && head -n 1 out.txt | grep -q "^usage: vin $command "
    result "vin $command --help" $?
    "${vin[@]}" help $command >want.txt
    same "vin help $command" want.txt out.txt
    "${vin[@]}" $command -h >want.txt
    same "vin $command -h" want.txt out.txt
    "${vin[@]}" --help | grep -qxF "  $(sed -n '1s/^usage: //p' out.txt)"
    result "vin $command --help and vin --help have one usage" $?
done
"${vin[@]}" --version | grep -q '^vin [0-9.]*$'
result "vin --version" $?
cp four-track.log ./-x
says 0 "$(cat four-track.txt)" list -- -x
rm -f ./-x out.txt err.txt want.txt

# Files that are not there, or are no text.
misuse "vin: nothing: No such file or directory" plan nothing
misuse "vin: nothing: No such file or directory" list nothing
misuse "vin: .: Is a directory" list .
misuse "vin: four-track.capture: this is no plan: a plan is a short text" plan four-track.capture
misuse "vin: four-track.log: these are no times: one decimal number of microseconds a line" \
    compose four-track.plan four-track.log four-track.log -o new
: >p
misuse 'vin: p: no line "words .."' plan p

# Plans, line by line.
wrong_line() { # LINE MESSAGE: as the third line of a plan
    plan "words 129" "tracks 1" "$1" "bus 2 1553"
    misuse "vin: p:3: $2" plan p
}
keys="the keys are words, tracks, frame-time, crc, parity, crc-label, fill-bus and bus"
wrong_line "wrods 129" "unknown key \"wrods\"; $keys"
wrong_line "Words 129" "unknown key \"Words\"; $keys"
wrong_line "words 130" "words is given again; line 1 has it"
wrong_line "crc maybe" '"maybe" is neither yes nor no'
wrong_line "crc" "a line is a key and its value; see vin(1)"
wrong_line "crc yes yes" "a line is a key and its value; see vin(1)"
wrong_line "bus 3" "a bus line is: bus CODE 1553, or bus CODE arinc"
wrong_line "bus 16 1553" "bus 16: a bus is 0 to 15"
wrong_line "bus two 1553" '"two" is not a number of at most nine digits'
wrong_line "bus 3 1773" '"1773" is no kind of bus: 1553, arinc or unused'
wrong_line "bus -1 1553" '"-1" is not a number of at most nine digits'
wrong_line $'caf\xe9\x1b[2J yes' "unknown key \"caf??[2J\"; $keys"
plan "words 129" "tracks 1" "bus 2 1553" "bus 2 arinc"
misuse "vin: p:4: this bus is given again; line 3 has it" plan p
plan "words 1234567890" "tracks 1"
misuse 'vin: p:1: "1234567890" is not a number of at most nine digits' plan p
plan "words 0x81" "tracks 1"
misuse 'vin: p:1: "0x81" is not a number of at most nine digits' plan p
plan "words 129"
misuse 'vin: p: no line "tracks .."' plan p

# Times, line by line.
printf '# two groups\n\n 36000000000 \r\n\t36000080000 # the second' >t
done_by compose four-track.plan four-track.log t -o new
same "times with blanks and comments" four-track.capture new
for bad in -1 1.5 "1 2" 1e6 0x10 noon; do
    printf '0\n%s\n' "$bad" >t
    misuse "vin: t:2: \"$bad\" is not one decimal number of microseconds" compose four-track.plan four-track.log t -o new
done
# A byte order mark, as some editors write it, is passed over.
printf '\xef\xbb\xbf36000000000\n36000080000\n' >t
{ printf '\xef\xbb\xbf'; cat four-track.plan; } >p
done_by compose p four-track.log --times t -o new
same "a plan and times with a byte order mark" four-track.capture new
{ printf '\xef\xbb\xbf'; cat four-track.txt; } >t
done_by pack t -o new
same "a listing with a byte order mark" four-track.log new

# Names are shown so that they can be: no escape, no second line, and of a long one the end.
misuse "vin: ?[31mevil?name: No such file or directory" list $'\e[31mevil\nname'
misuse "vin: überflug?: No such file or directory" list $'überflug\x9b'
misuse "vin: a??31m: No such file or directory" list $'a\xc2\x9b31m' # a control of two bytes
misuse "vin: a???b: No such file or directory" list $'a\xe2\x80\xaeb' # turns the direction of writing
long=$(printf 'folder/%.0s' {1..60})end.log
misuse "vin: ..${long: -221}: No such file or directory" list "$long"
rm -f p t new
