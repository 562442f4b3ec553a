# Times moved, held to the listing: every " at T" and every frame time goes by the shift, and nothing else changes.
moved() { # MICROSECONDS TEXT: the listing or the times with each time moved, by awk
    awk -v by="$1" '{ if ($(NF - 1) == "at") $NF = sprintf("%.0f", $NF + by); else if (NF == 1) $1 = sprintf("%.0f", $1 + by); print }' "$2"
}
for sample in four-track composite; do
    for shift in 1:1 -1:-1 0:0 250ms:250000 +250ms:250000 -1.5s:-1500000 0.000001s:1 1h:3600000000 -2.5min:-150000000 -10h:-36000000000 \
        -36000000000us:-36000000000 1d:86400000000 366d:31622400000000 31622400000000:31622400000000; do
        by=${shift%:*} microseconds=${shift#*:}
        done_by shift --by="$by" $sample.log -o new --times $sample.times --times-out new.times
        "${vin[@]}" list new >have
        moved "$microseconds" $sample.txt >want
        same "$sample by $by" want have
        moved "$microseconds" $sample.times >want
        same "$sample by $by: frame times" want new.times
        [ "$(stat -c %s new)" -eq "$(stat -c %s $sample.log)" ]
        result "$sample by $by: the log's length" $?
    done
    "${vin[@]}" shift --by -5s <$sample.log | "${vin[@]}" shift --by 5s | cmp -s - $sample.log
    result "$sample: there and back" $?
    "${vin[@]}" shift --by=0 $sample.log | cmp -s - $sample.log
    result "$sample: by 0" $?
done
done_by shift --by=1s four-track.log -o new --times four-track.times --times-out new.times
done_by compose four-track.plan new new.times -o capture
done_by read four-track.plan capture -o back --times-out back.times
same "what was moved is composed and read" new back
same "its times too" new.times back.times
bytes 00 >empty.log
done_by shift --by=-366d empty.log -o new
same "the empty log" empty.log new
: >no.times
done_by shift --by=-366d empty.log -o new --times no.times --times-out new.times
same "no times" no.times new.times
"${vin[@]}" shift --by=1 empty.log -o new --times four-track.times --times-out - | cmp -s - <(moved 1 four-track.times)
result "times to standard output" $?
rm -f new new.times

# What is no shift, and what is missing.
shift_usage="--by SHIFT [LOG] [-o LOG] [--times FILE --times-out FILE]"
for by in "" s 1.s .5s 1.5.5s 1e6 0x10 1m 1S "1 s" --1 +-1 1,5s 1.0000001s one 1sec; do
    misuse "vin: shift: \"$by\" is no shift: microseconds, or a number with us, ms, s, min, h or d, as in -1.5s" shift --by "$by" four-track.log -o new
done
for by in 1.5 -0.1us 0.0001ms 0.000001ms 1.000001ms; do
    misuse "vin: shift: \"$by\" is no whole number of microseconds" shift --by="$by" four-track.log -o new
done
misuse "vin: shift: --by is missing: how far, as in --by=-1.5s" shift four-track.log -o new
usage shift "--by needs SHIFT" "$shift_usage" four-track.log -o new --by
usage shift "--by is given twice" "$shift_usage" --by 1 --by 2
usage shift "one argument too many: b" "$shift_usage" --by 1 a b
misuse "vin: shift: --times and --times-out go together" shift --by=1 four-track.log -o new --times four-track.times
misuse "vin: shift: --times and --times-out go together" shift --by=1 four-track.log -o new --times-out new.times
misuse "vin: nothing: No such file or directory" shift --by=1 nothing -o new
misuse "vin: nothing: No such file or directory" shift --by=1 four-track.log -o new --times nothing --times-out new.times
misuse "vin: shift: standard input can be read only once" shift --by=1 -o new --times - --times-out new.times
misuse "vin: shift: -o and --times-out name the same file" shift --by=1 four-track.log -o new --times four-track.times --times-out ./new

# Refusals: 2 and 4, then 17 for the shift, for a tag, for a frame time.
head -c 100 four-track.log >cut.log
refused "vin: cut.log: refused by 2 at bit 784 (byte 98, bit 0, item 28): a status begins here, and the log ends inside it" shift --by=400d cut.log -o new
bytes 12 42 10 FF FF FF FF E7 10 00 >limit.log
refused "vin: limit.log: refused by 4 at bit 0 (byte 0, bit 0, item 1): a command on bus 2 whose micro is 10000: it must be below 10000" shift --by=400d limit.log -o new
for by in 366.000001d 31622400000001 -31622400000001 9223372036854775807 -9223372036854775808 99999999999999999999s -99999999999999999999 18446744073709551616; do
    refused "vin: four-track.log: refused by 17 at 0: the shift is $by, and at most 31622400000000 microseconds (366 days) are moved either way" \
        shift --by="$by" four-track.log -o new
done
printf '%s\n' "dat 2 A 0001" "cmd 2 A 0843 at 10005" "arn 5 1 00000000 at 42949672959000" | "${vin[@]}" pack >l
at2="bit 25 (byte 3, bit 1, item 2)" at3="bit 97 (byte 12, bit 1, item 3)"
done_by shift --by=-10005 l -o new
done_by shift --by=999 l -o new
rm -f new
refused "vin: l: refused by 17 at $at2: a command on bus 2 whose time 10005 would fall below zero" shift --by=-10006 l -o new
refused "vin: l: refused by 17 at $at3: an ARINC word on bus 5 whose time 42949672959000 would reach 42949672960000, and times are below that" \
    shift --by=1ms l -o new
printf '%s\n' '# three' 20000 '' 10004 '42949672959001 # late' >t
refused "vin: t:4: refused by 17 at time 1 (counted from 0): 10004 microseconds would fall below zero" shift --by=-10005 l -o new --times t --times-out new.times
refused "vin: t:5: refused by 17 at time 2 (counted from 0): 42949672959001 microseconds would not be below 42949672960000, as times are" \
    shift --by=999 l -o new --times t --times-out new.times
refused "vin: l: refused by 17 at $at2: a command on bus 2 whose time 10005 would fall below zero" shift --by=-1d l -o new --times t --times-out new.times
echo 99999999999999999999 >t
refused "vin: t:1: refused by 17 at time 0 (counted from 0): 99999999999999999999 microseconds would not be below 42949672960000, as times are" \
    shift --by=-1 l -o new --times t --times-out new.times
# A frame time above the range is judged by where it comes to.
printf '%s\n' 42949672960000 42949672960001 >t
refused "vin: t:2: refused by 17 at time 1 (counted from 0): 42949672960001 microseconds would not be below 42949672960000, as times are" \
    shift --by=-1 l -o new --times t --times-out new.times
done_by shift --by=-2 l -o new --times t --times-out new.times
same "a time above the range comes into it" <(printf '%s\n' 42949672959998 42949672959999) new.times
cp four-track.log kept.log
misuse "vin: shift: kept.log is also an input" shift --by=1 kept.log -o kept.log
cp four-track.times kept.times
misuse "vin: shift: kept.times is also an input" shift --by=1 kept.log -o new --times kept.times --times-out kept.times
same "the log is as it was" four-track.log kept.log
same "the times are as they were" four-track.times kept.times
rm -f new new.times have want l t capture back back.times no.times kept.times {empty,cut,limit,kept}.log
