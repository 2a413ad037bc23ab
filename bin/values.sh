# shellcheck shell=sh
# What bin/xt says after `Usage 4`: the first value of an option that is none, and what it may be.

# Whether a text has this form: fits PATTERN TEXT.
fits() {
    printf '%s\n' "$2" | grep -Eqx -e "$1"
}

# One value: show_one OPTION TEXT WHAT.
show_one() {
    echo "\`$2\` of \`$1\` is $3"
    bad=yes
}

# The words of a list with commas between them that are none of these: show_others OPTION TEXT WORD..
show_others() {
    option=$1
    list=$2
    shift 2
    choices=
    for choice; do choices="$choices${choices:+, }\`$choice\`"; done
    rest=$list,
    while [ -n "$rest" ]; do
        part=${rest%%,*}
        rest=${rest#*,}
        case " $* " in *" $part "*) ;; *) [ -n "$bad" ] || show_one "$option" "$part" "none of $choices" ;; esac
    done
}

# The first value among the words that is none, or nothing, and then this fails: show_value COMMAND WORD..
show_value() {
    bad=
    command=$1
    number='(0x[0-9A-Fa-f]{1,8}|[0-9]+)'
    digits='decimal digits, or 0x and one to eight hexadecimal digits'
    before=
    [ "$command" != gen ] || before=gen
    shift
    for word; do
        [ -z "$bad" ] || break
        case $before in
        --turns[01] | --entry1 | --vecbase | --seed | --from | --to | --states | --depth | --word | gen)
            fits "$number" "$word" || show_one "$before" "$word" "no number, which is $digits"
            ;;
        --show)
            fits "($number|stuck)" "$word" ||
                show_one "$before" "$word" "neither the number of an outcome nor \`stuck\`"
            ;;
        --stack[01]) fits "$number:$number" "$word" || show_one "$before" "$word" "no range \`LO:HI\` of two numbers" ;;
        --order)
            fits "$number\*$number(,$number\*$number)*" "$word" ||
                show_one "$before" "$word" "no list \`C*N,C*N,..\` of cores with their turns"
            ;;
        --memory)
            fits "$number:$number(,$number:$number){0,3}" "$word" ||
                show_one "$before" "$word" "no list of one to four \`ADDR:N\`, with commas between them"
            ;;
        --roots)
            fits "$number(,$number)*" "$word" ||
                show_one "$before" "$word" "no list of numbers with commas between them"
            ;;
        --core) fits '0|1' "$word" || show_one "$before" "$word" "neither 0 nor 1" ;;
        --require)
            case $command in
            outcomes) show_others "$before" "$word" one not-stuck race-free whole ;;
            *) show_others "$before" "$word" break whole used race-free exit0 secret ;;
            esac
            ;;
        esac
        case $bad:$before in
        :--word) [ $((word % 4)) -eq 0 ] || show_one "$before" "$word" "no multiple of 4" ;;
        :--depth) fits '[1-9]|[1-5][0-9]|6[0-4]' "$word" || show_one "$before" "$word" "none of 1 to 64" ;;
        esac
        before=$word
    done
    [ -n "$bad" ]
}
