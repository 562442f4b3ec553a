# The one-bus test profile: yes, or the first item that breaks a rule, and which.
kept() { # LINE..: a log of these items keeps the profile
    printf '%s\n' "$@" | "${vin[@]}" pack >l
    says 0 "yes: one bus, 2; $# item$([ $# -eq 1 ] || echo s)" profile l
}
broken() { # BIT ITEM WHY LINE..: a log of these items breaks it there
    local bit=$1 number=$2 why=$3
    shift 3
    printf '%s\n' "$@" | "${vin[@]}" pack >l
    refused "vin: l: refused by 18 at bit $bit (byte $((bit / 8)), bit $((bit % 8)), item $number): \"${!number}\": $why" profile l
}
tagged="cmd 2 A 0843 at 10005" bare="cmd 2 A 0844" answered="sta 2 A 0800 resp 8" data="dat 2 A BEEF"
bytes 00 >l
says 0 "yes: no items" profile l
"${vin[@]}" profile <l >have
result "profile of standard input" $?
echo "yes: no items" >want
same "profile of standard input" want have
says 0 "yes: one bus, 2; 403 items" profile four-track.log
kept "$data"
kept "$tagged" "$bare" "$answered" "$data" "err 2 B 0001" "ovf 2 0007" "cmd 2 B 0843 at 10005" "cmd 2 B 0001"
broken 25 2 "it is on bus 3, and the first item on bus 2: only one bus may occur" "$data" "dat 3 A BEEF" "usr 2 2 0000"
broken 25 2 "it is an ARINC word, and the profile has none" "$data" "arn 2 1 01234567 at 5"
broken 25 2 "it is an ARINC notice, and the profile has none" "$data" "are 2 4 00"
broken 25 2 "it is on bus 15, and the first item on bus 2: only one bus may occur; it is an ARINC word, and the profile has none" "$data" "arn 15 3 01234567"
broken 0 1 "it is a user word, and the profile has none" "usr 2 3 0009" "$bare"
broken 0 1 "a command without its time tag, and no item stands before it" "$bare"
broken 25 2 "a command without its time tag, and the item before it is a data word" "$data" "$bare"
broken 98 3 "a command without its time tag, and the command before it has none either" "$tagged" "$bare" "$bare"
broken 96 3 "a command without its time tag, and the item before it is an overflow mark" "$tagged" "ovf 2 0001" "$bare"
broken 72 2 "a command without its time tag on side B, and the tagged one before it is on side A" "$tagged" "cmd 2 B 0844"
broken 72 2 "a status without its response time" "$tagged" "sta 2 A 0800"
broken 97 3 "its time goes back: item 1 is at 10005" "$tagged" "$data" "cmd 2 B 0843 at 10004"
broken 144 3 "its time goes back: item 2 is at 10006" "$tagged" "cmd 2 B 0843 at 10006" "$tagged"
broken 25 2 "it is on bus 3, and the first item on bus 2: only one bus may occur; a command without its time tag, and the item before it is a data word" "$data" "cmd 3 A 0001"
# 2 and 4 of the whole log come first.
printf '%s\n' "usr 2 3 0009" "$data" | "${vin[@]}" pack | head -c 6 >l
refused "vin: l: refused by 2 at bit 25 (byte 3, bit 1, item 2): a data word begins here, and the log ends inside it" profile l
bytes 32 5F 77 91 20 00 1F FF 80 >l
refused "vin: l: refused by 4 at bit 25 (byte 3, bit 1, item 2): a status on bus 2 whose response is 16383: it must be below 10000" profile l
head -c 32769 /dev/zero >l
refused "vin: l: refused by 2 at 0: the log has more than 32768 bytes" profile l
misuse "vin: nothing: No such file or directory" profile nothing
usage profile "one argument too many: b" "[LOG]" a b
usage profile "takes no -o" "[LOG]" a -o b
refused 'vin: composite.log: refused by 18 at bit 212 (byte 26, bit 4, item 7): "cmd 1 B 3C42 at 36000000450": it is on bus 1, and the first item on bus 0: only one bus may occur' \
    profile composite.log
rm -f l have want
