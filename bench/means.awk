# The means of the figures that several programs printed, line by line, and the ratios of these; then the worst of them.
FNR == 1 { programs++ }
/worst ratio/ { split($0, word, " "); name[++names] = word[1]; unit = /an item/ ? "an item" : "a word"; next }
{
    lines = FNR
    whole[FNR] = $0
    front[FNR] = $1
    if (NF - 1 > columns)
        columns = NF - 1
    for (f = 1; f < NF; f++)
        if (split($(f + 1), part, " ") == 3 && part[3] ~ /^[0-9.]+$/) {
            library[FNR, f] += part[1]
            plain[FNR, f] += part[2]
        }
}
END {
    for (n = 1; n <= lines; n++) {
        figure = 0
        for (f = 1; f <= columns; f++)
            figure += ((n, f) in library)
        if (!figure) {
            print whole[n]
            continue
        }
        printf "%s", front[n]
        for (f = 1; f <= columns; f++)
            if ((n, f) in library) {
                ratio = library[n, f] / plain[n, f]
                fast = plain[n, f] / programs
                printf "| %7.2f %7.2f %6.2f ", library[n, f] / programs, fast, ratio
                figures++
                if (ratio > 1.5) above++
                if (ratio > worst[f]) worst[f] = ratio
                if (fast > slowest[f]) slowest[f] = fast
                sum[f] += fast
                rows[f]++
            } else
                printf "| %7s %7s %6s ", "", "", ""
        print ""
    }
    for (f = 1; f <= columns; f++)
        if (rows[f])
            printf "%-12s worst ratio %5.2f; fast C: mean %5.2f ns %s, slowest row %5.2f\n", name[f], worst[f], sum[f] / rows[f], unit, slowest[f]
    printf "%d of %d figures are above 1.5\n", above, figures
}
