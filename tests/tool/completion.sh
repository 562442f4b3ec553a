# The completion for bash has every command and every option that the help has.
. "$top/tools/vin.bash"
completes() { # WORD..: what the last word becomes
    COMP_WORDS=(vin "$@")
    COMP_CWORD=$#
    _vin
    printf '%s\n' "${COMPREPLY[@]}" | sort
}
completes "" >have
{ "${vin[@]}" --help | sed -n 's/^  vin \([a-z]*\) .*/\1/p'; printf '%s\n' help --help --version; } | sort >want
same "completion: the commands" want have
completes c >have
printf '%s\n' check compose >want
same "completion: c" want have
for command in $("${vin[@]}" --help | sed -n 's/^  vin \([a-z]*\) .*/\1/p'); do
    [ "$command" = explain ] && continue
    completes "$command" - >have
    { "${vin[@]}" "$command" --help | sed -n 's/^  \(-[-a-z]*\).*/\1/p'; echo --help; } | sort >want
    same "completion: the options of $command" want have
done
completes dump four-t >have
echo four-track.plan >want
same "completion: the plan comes first" want have
completes dump four-track.plan four-track.c >have
echo four-track.capture >want
same "completion: then the capture" want have
completes explain "" | wc -l >have
"${vin[@]}" explain | wc -l >want
same "completion: the refusals" want have
completes replay --plan four-t >have
echo four-track.plan >want
same "completion: the plan of replay" want have
completes dump p c --bus 1 >have
printf '%s\n' 1 10 11 12 13 14 15 >want
same "completion: buses" want have
rm -f have want
unset COMP_WORDS COMP_CWORD COMPREPLY
