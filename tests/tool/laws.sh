# Laws that scripts lean on, "where every call named succeeds": commands in one order and in another write the same bytes, through pipes.
alike() { # LAW: what stands in one and in other is the same, and is something
    [ -s one ] && [ -s other ]
    result "$1: something is written" $?
    same "$1" one other
    rm -f one other
}
vin() { "${vin[@]}" "$@"; }
# A log of every kind of item on several buses, and its time row.
awk 'BEGIN {
    for (n = 0; n < 600; n++) {
        bus = (n * 7 + int(n / 16)) % 16; channel = 1 + int(n / 8) % 4; side = n % 2 ? "A" : "B"; time = 5000000 + n * 104729 % 10007
        if (n % 8 == 0) printf "cmd %d %s %04X at %d\n", bus, side, n, time
        if (n % 8 == 1) printf "sta %d %s %04X resp %d\n", bus, side, n, n % 10000
        if (n % 8 == 2) printf "dat %d %s %04X\n", bus, side, n
        if (n % 8 == 3) printf "err %d %s %04X\n", bus, side, n
        if (n % 8 == 4) printf "arn %d %d %08X at %d\n", bus, channel, n * 65537, time
        if (n % 8 == 5) printf "are %d %d %02X\n", bus, channel, n % 256
        if (n % 8 == 6) printf "usr %d %d %04X\n", bus, 2 + n % 3 / 2, n
        if (n % 8 == 7) printf "ovf %d %04X\n", bus, n
    }
}' | vin pack >mixed.log
printf '%s\n' 5000000 5010000 6000001 >mixed.times
bytes 00 >empty.log

for pair in "composite four-track" "four-track mixed" "mixed composite"; do
    read -r a b <<<"$pair"
    for buses in 0 2,5 0-7 1,3,5-15 all; do
        vin join $a.log $b.log | vin pick $buses >one
        vin pick $buses $b.log >picked
        vin pick $buses $a.log | vin join - picked >other
        alike "pick $buses of join $a $b is the join of the picks"
    done
done
for log in composite four-track mixed; do
    for sets in "0-7 5-15 5-7" "0,2,5 1-2,5 2,5" "all 3-9 3-9" "0,2 1,5 none" "5 5 5"; do
        read -r first second common <<<"$sets"
        vin pick $first $log.log | vin pick $second >one
        if [ $common = none ]; then cp empty.log other; else vin pick $common $log.log >other; fi
        alike "$log: pick $first, then $second is pick $common"
    done
    vin join $log.log empty.log >one
    cp $log.log other
    alike "$log: the empty log behind"
    vin join empty.log $log.log >one
    cp $log.log other
    alike "$log: the empty log in front"
    vin shift --by=0 $log.log --times $log.times --times-out one.times >one
    cp $log.log other
    alike "$log: shift by 0"
    same "$log: shift by 0, frame times" $log.times one.times
    for shifts in "1s 2s 3s" "-1.5s 1s -500ms" "1h -1h 0" "-1us 10ms 9999us" "300d -299d 1d"; do
        read -r first second sum <<<"$shifts"
        vin shift --by=$first $log.log --times $log.times --times-out first.times | vin shift --by=$second --times first.times --times-out one.times >one
        vin shift --by=$sum $log.log --times $log.times --times-out other.times >other
        alike "$log: shift $first, then $second is shift $sum"
        same "$log: shift $first, then $second: frame times" one.times other.times
    done
    for buses in 0 2,5 0-7 all; do
        for by in 1s -1.5s 1us 1d; do
            vin pick $buses $log.log | vin shift --by=$by --times $log.times --times-out one.times >one
            vin shift --by=$by $log.log --times $log.times --times-out other.times | vin pick $buses >other
            alike "$log: pick $buses and shift $by change places"
            same "$log: pick $buses and shift $by: frame times" one.times other.times
        done
    done
done
vin join composite.log four-track.log | vin join - mixed.log >one
vin join four-track.log mixed.log >behind
vin join composite.log behind >other
alike "join is associative"
unset -f vin
rm -f picked behind {one,other,first,mixed}.times {mixed,empty}.log
