# The manual has every command, every option and every number's range that the help has; groff has nothing to say against it.
manual=$(sed -e 's/\\-/-/g' -e 's/\\f[A-Z]//g' "$top/tools/vin.1")
for command in $("${vin[@]}" --help | sed -n 's/^  vin \([a-z]*\) .*/\1/p'); do
    grep -q "^vin $command" <<<"$manual"
    result "the manual's synopsis has $command" $?
    for option in $("${vin[@]}" "$command" --help | sed -n 's/^  \(-[-a-z]*\).*/\1/p'); do
        grep -qE -- "(^|[^-a-z])$option([^-a-z]|\$)" <<<"$manual"
        result "the manual has $option of $command" $?
    done
done
grep -qF "$("${vin[@]}" dump four-track.plan four-track.capture --from 388 --count 4 | tail -n 4 | sed 's/^ *//' | head -n 1)" <<<"$manual"
result "the manual's dump is a dump" $?
if command -v groff >/dev/null; then
    groff -man -ww -Tascii "$top/tools/vin.1" >/dev/null 2>have
    : >want
    same "groff over the manual" want have
    rm -f have want
fi
