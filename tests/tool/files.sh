# Outputs: whole or not at all, and nothing else left behind.
mkdir in
good=(compose ../four-track.plan ../four-track.log ../four-track.times -o)
inside() { (cd in && "${vin[@]}" "$@"); }
end() { # WHAT STATUS COMMAND..: the command, inside, ends so; what it says goes to err.txt
    local what=$1 status=$2 got
    shift 2
    "$@" 2>err.txt
    got=$?
    [ "$got" -eq "$status" ]
    result "$what: status $got and not $status" $?
}
told() { # WHAT TEXT
    printf '%s\n' "$2" >want.txt
    same "$1: message" want.txt err.txt
    rm -f want.txt err.txt
}

end "a new file" 0 inside "${good[@]}" c
leaves "a new file" c
[ "$(stat -c %a in/c)" = "$(printf '%o' $((0666 & ~$(umask))))" ]
result "a new file's mode" $?

# A refusal or misuse leaves the old file as it was.
echo old >in/c
cp in/c old
end "a refusal" 1 inside compose ../four-track.plan ../composite.log -o c
same "a refusal: the old file" old in/c
end "no times" 2 inside compose ../four-track.plan ../four-track.log nothing -o c
same "misuse: the old file" old in/c
leaves "a refusal" c

# An old file is replaced, keeps its mode, and stays where a link points.
chmod 640 in/c
end "replaced" 0 inside "${good[@]}" c
same "replaced" four-track.capture in/c
[ "$(stat -c %a in/c)" = 640 ]
result "replaced: the mode" $?
ln -s c in/link
cp old in/c
end "through a link" 0 inside "${good[@]}" link
[ -L in/link ]
result "the link is still one" $?
same "through a link" four-track.capture in/c
leaves "through a link" c link
rm in/c in/link

# A disk that is full, a limit on files, a folder that is not there, a folder.
end "full" 2 inside "${good[@]}" /dev/full
told "full" "vin: /dev/full: No space left on device"
end "standard output full" 2 eval 'inside "${good[@]}" - >/dev/full'
told "standard output full" "vin: standard output: No space left on device"
for words in "plan ../four-track.plan" "list ../four-track.log" "explain 3" --help "check ../four-track.plan ../four-track.capture"; do
    end "full: $words" 2 eval 'inside $words >/dev/full'
    told "full: $words" "vin: standard output: No space left on device"
done
end "too large" 2 eval '(ulimit -f 1; inside "${good[@]}" c)'
told "too large" "vin: c: File too large"
end "no folder" 2 inside "${good[@]}" nowhere/c
told "no folder" "vin: nowhere/c: No such file or directory"
end "a folder" 2 inside "${good[@]}" .
told "a folder" "vin: .: Is a directory"
end "two outputs, one wrong" 2 inside read ../composite.plan ../composite.capture -o c --times nowhere/t
told "two outputs, one wrong" "vin: nowhere/t: No such file or directory"
end "two outputs, the other wrong" 2 inside read ../composite.plan ../composite.capture -o nowhere/c --times t
told "two outputs, the other wrong" "vin: nowhere/c: No such file or directory"
end "two outputs, one full" 2 inside read ../composite.plan ../composite.capture -o c --times /dev/full
told "two outputs, one full" "vin: /dev/full: No space left on device"
leaves "what cannot be written"

# Devices and pipes are written as they are.
end "/dev/null" 0 inside "${good[@]}" /dev/null
[ -c /dev/null ]
result "/dev/null is still a device" $?
inside "${good[@]}" /dev/stdout >c
same "/dev/stdout into a file" four-track.capture c
mkfifo pipe
timeout 20 cat pipe >c & # a tool that never opens it must not hold up the test
inside "${good[@]}" ../pipe
wait $!
same "a named pipe" four-track.capture c
leaves "devices and pipes"

# Ended while it waits for its input, it leaves nothing.
mkfifo waiting
(cd in && exec "${vin[@]}" compose ../four-track.plan - ../four-track.times -o c <../waiting) &
waiting=$!
exec 3>waiting
sleep 0.2
kill -TERM "$waiting"
wait "$waiting" 2>/dev/null
[ $? -eq 143 ]
result "ended by a signal" $?
exec 3>&-
leaves "ended by a signal"

# The lister stands beside the tool; without it list says so. A script that runs a program elsewhere is copied with that program.
for word in "${vin[@]}"; do tool=$word; done
mkdir alone
cp "$tool" alone/vin
beside=$(sed -n 's|.*"$(dirname "$self")/\(.*\)/$(basename "$self")".*|\1|p' "$tool" 2>/dev/null | head -n 1 | tr -d '\0')
if [ -n "$beside" ]; then
    mkdir -p "alone/$beside"
    cp "$(dirname "$tool")/$beside/vin" "alone/$beside"
fi
"${vin[@]::${#vin[@]}-1}" alone/vin list four-track.log >out.txt 2>err.txt
[ $? -eq 2 ] && [ ! -s out.txt ] && tail -n 1 err.txt | grep -q 'vin-lister did not list the log$'
result "without the lister" $?
rm -rf in old c pipe waiting alone out.txt err.txt
