# No file is lost: outputs that are one file, an output that is an input, links, and the temporary file's mode.
mkdir -p in/dd
ln -s dd in/ee
read_in=(read ../composite.plan ../composite.capture)
inside() { (cd in && "${vin[@]}" "$@"); }
clashes() { # WHAT MESSAGE NAME..: with the command in words[], run inside: status 2, this message, and just these files
    local what=$1 message=$2 got
    shift 2
    inside "${words[@]}" >out.txt 2>err.txt <"${stdin:-/dev/null}"
    got=$?
    [ "$got" -eq 2 ] && [ ! -s out.txt ]
    result "$what: status $got, or an output" $?
    printf '%s\n' "$message" >want.txt
    same "$what: message" want.txt err.txt
    leaves "$what" "$@"
}

# Two outputs that are one file which is not there yet, however spelt.
one="vin: read: -o and --times name the same file"
for pair in "new new" "new ./new" "./new dd/../new" "dd/x ee/x" "ee/x dd/./x" "$PWD/in/new new" "- -" "dd//x ee/../dd/x"; do
    words=("${read_in[@]}" -o ${pair% *} --times ${pair#* })
    clashes "two outputs, $pair" "$one" dd ee
    words=("${read_in[@]}" --times-out ${pair% *} -o ${pair#* })
    clashes "two outputs, $pair, the other way" "vin: read: -o and --times-out name the same file" dd ee
done
# Through links that lead nowhere, and one file that is there under two names.
ln -s not-there in/l1
ln -s ./not-there in/dd/l2
ln -s ../not-there in/dd/l3
words=("${read_in[@]}" -o l1 --times not-there)
clashes "a dangling link and its end" "$one" dd ee l1
words=("${read_in[@]}" -o dd/l3 --times l1)
clashes "two dangling links" "$one" dd ee l1
words=("${read_in[@]}" -o l1 --times dd/l2)
inside "${words[@]}" 2>err.txt
[ $? -eq 0 ] && cmp -s in/not-there composite.log && cmp -s in/dd/not-there composite.times && [ -L in/l1 ] && [ -L in/dd/l2 ]
result "two dangling links that differ, each written at its end" $?
rm in/not-there in/dd/not-there in/dd/l2 in/dd/l3 in/l1
cp composite.log in/a
ln in/a in/b
words=("${read_in[@]}" -o a --times b)
clashes "two names of one file" "$one" a b dd ee
same "two names of one file: it is as it was" composite.log in/a
rm in/b
inside "${read_in[@]}" -o /dev/null --times /dev/null 2>err.txt
[ $? -eq 0 ] && [ ! -s err.txt ]
result "two outputs that are thrown away" $?
# Standard output by two names: a pipe, a file.
inside "${read_in[@]}" -o - --times /dev/stdout 2>err.txt | cat >out.txt
[ ! -s out.txt ] && echo "$one" | cmp -s - err.txt
result "standard output by two names, a pipe" $?
inside "${read_in[@]}" -o - --times ../out.txt >out.txt 2>err.txt
[ ! -s out.txt ] && echo "$one" | cmp -s - err.txt
result "standard output is the other output's file" $?

# An output that is an input: by name, by another name, on standard input, through /dev/stdin, for each command.
for to in a ./a dd/../a "$PWD/in/a"; do
    words=(compose ../composite.plan a ../composite.times -o "$to")
    clashes "the log is the output $to" "vin: compose: $to is also an input" a dd ee
done
words=(compose ../composite.plan - ../composite.times -o a)
stdin=in/a clashes "standard input is the output" "vin: compose: a is also an input" a dd ee
words=(compose ../composite.plan /dev/stdin ../composite.times -o a)
stdin=in/a clashes "/dev/stdin is the output" "vin: compose: a is also an input" a dd ee
words=(list -o a)
stdin=in/a clashes "list, the input left out, is the output" "vin: list: a is also an input" a dd ee
words=(pack -o a)
stdin=in/a clashes "pack, the input left out, is the output" "vin: pack: a is also an input" a dd ee
words=(pack a -o ./a)
clashes "pack" "vin: pack: ./a is also an input" a dd ee
same "the log is as it was" composite.log in/a
cp composite.capture in/a
words=(read ../composite.plan - -o a)
stdin=in/a clashes "read, standard input is the output" "vin: read: a is also an input" a dd ee
words=(read ../composite.plan a -o new --times-out ee/../a)
clashes "read, the times are the capture" "vin: read: ee/../a is also an input" a dd ee
words=(dump ../composite.plan a -o a)
clashes "dump" "vin: dump: a is also an input" a dd ee
words=(compose ../composite.plan ../composite.log --times a -o a)
clashes "compose, the times are the output" "vin: compose: a is also an input" a dd ee
same "the capture is as it was" composite.capture in/a
# Appended to what is read.
cp composite.log in/a
inside list a >>in/a 2>err.txt
[ $? -eq 2 ] && echo "vin: list: standard output is also an input" | cmp -s - err.txt && cmp -s in/a composite.log
result "list into its own log" $?
inside list <in/a >>in/a 2>err.txt
[ $? -eq 2 ] && echo "vin: list: standard output is also an input" | cmp -s - err.txt && cmp -s in/a composite.log
result "list from standard input into the same file" $?
rm in/a

# A link stays a link, and its end is written; links in a circle are told and left.
ln -s end in/l
ln -s l in/ll
inside compose ../composite.plan ../composite.log ../composite.times -o ll
[ -L in/l ] && [ -L in/ll ] && [ ! -L in/end ] && cmp -s in/end composite.capture
result "a dangling link is followed to its end" $?
rm in/end
ln -s y in/x
ln -s x in/y
words=(compose ../composite.plan ../composite.log ../composite.times -o x)
clashes "links in a circle" "vin: x: Too many levels of symbolic links" dd ee l ll x y
rm in/l in/ll in/x in/y

# The temporary file of a secret is a secret from the start, as the system calls show; and a replaced file keeps whose it was.
if command -v strace >/dev/null && [ ${#vin[@]} -eq 1 ] && file -L "${vin[0]}" 2>/dev/null | grep -q ELF; then
    : >in/secret
    chmod 600 in/secret
    (cd in && umask 022 && strace -f -e trace=openat,open -o ../trace "${vin[@]}" compose ../composite.plan ../composite.log ../composite.times -o secret)
    grep -q '"\.vin-[0-9]*-0", .*O_EXCL.*, 0600)' trace
    result "the temporary file's mode from the start" $?
    rm -f trace in/secret
fi
: >in/secret
chmod 640 in/secret
if [ "$(id -u)" -eq 0 ]; then # only root can give a file away
    chown 65534:65534 in/secret
    inside compose ../composite.plan ../composite.log ../composite.times -o secret
    [ "$(stat -c '%u:%g %a' in/secret)" = "65534:65534 640" ]
    result "owner, group and mode of a replaced file" $?
fi
rm -rf in out.txt err.txt want.txt
unset stdin words
