# What a command line asks for, read as crates/ulfm_command and its library clap read it: with the same faults, and the same words for them.
# read_words WORD..     sets `asked` to run, echo, steps, migrate, check, explain, observed, witness, draw, explore, replay, race, shown or bad; then `text` names the page that
#                       is shown, or is the reason why it is bad.
# gate/launcher_test.py compares this with the program, on random lines too.

# the names of the commands, in the order in which they are listed
commands=(run migrate check draw explore replay race help)

# what each command is called with, where no option is known to be meant
usage_of() {
    case $1 in
        ulfm) echo 'ulfm <COMMAND>' ;;
        run) echo 'ulfm run [OPTIONS]' ;;
        migrate) echo 'ulfm migrate' ;;
        check) echo 'ulfm check [OPTIONS]' ;;
        draw) echo 'ulfm draw [OPTIONS]' ;;
        explore) echo 'ulfm explore [OPTIONS]' ;;
        replay) echo 'ulfm replay' ;;
        race) echo 'ulfm race [OPTIONS] --ranks <N> --rounds <K>' ;;
        help) echo 'ulfm help [COMMAND]...' ;;
    esac
}

# the long options of a command
options_of() {
    case $1 in
        ulfm) echo help version ;;
        run) echo steps echo help ;;
        check) echo explain observed witness help ;;
        draw) echo text ascii help ;;
        explore) echo most outcome help ;;
        race) echo ranks rounds fail help ;;
        *) echo help ;;
    esac
}

# an option as it is shown, with the name of its value
shown_option() {
    case $1 in
        ranks) echo '--ranks <N>' ;;
        rounds) echo '--rounds <K>' ;;
        fail) echo '--fail <R>' ;;
        most) echo '--most <STATES>' ;;
        outcome) echo '--outcome <N>' ;;
        *) echo "--$1" ;;
    esac
}

# The line is bad, for this reason, with a line on help below it.
refuse() {
    asked=bad
    text="error: $1"$'\n\n'"For more information, try '--help'."$'\n'
}

# the same with the usage of a command
refuse_with_usage() {
    refuse "$2"$'\n\n'"Usage: $1"
}

# the usage of a command with these options, those first that it needs; with no options its usual one
usage_with() {
    local command=$1 option shown=" "
    shift
    if [ $# -eq 0 ]; then
        usage_of "$command"
        return
    fi
    if [ "$command" = race ]; then set -- ranks rounds "$@"; fi
    for option; do
        option=$(shown_option "$option")
        case $shown in *" $option "*) ;; *) shown+="$option " ;; esac
    done
    case $command in
        ulfm) echo "ulfm$shown<COMMAND>" ;;
        *) shown="ulfm $command$shown" && echo "${shown% }" ;;
    esac
}

# Those of the names that are close to the word, the best fit last, one a line. The measure is Jaro's, by characters, and must be over 0.7.
close_names() {
    local LC_ALL=C word=$1
    shift
    word=${word//[$'\x80'-$'\xbf']/}
    word=${word//[$'\xc0'-$'\xff']/$'\x02'} awk 'BEGIN {
        word = ENVIRON["word"]; a = length(word)
        for (n = 1; n < ARGC; n++) {
            name = ARGV[n]; b = length(name); range = int((a > b ? a : b) / 2) - 1; m = t = 0; split("", taken)
            if (range < 0) range = 0
            for (i = 1; i <= a; i++) for (j = (i > range ? i - range : 1); j <= b && j <= i + range; j++)
                if (!(j in taken) && substr(word, i, 1) == substr(name, j, 1)) { taken[j]; kept[++m] = substr(word, i, 1); break }
            if (!m) continue
            for (j = k = 1; j <= b; j++) if (j in taken) t += (kept[k++] != substr(name, j, 1))
            fit = (m / a + m / b + (m - int(t / 2)) / m) / 3
            if (fit <= 0.7) continue
            for (k = found++; k > 0 && fits[k] > fit; k--) { fits[k + 1] = fits[k]; names[k + 1] = names[k] }
            fits[k + 1] = fit; names[k + 1] = name
        }
        for (k = 1; k <= found; k++) print names[k]
    }' "$@"
}

# A long option that the command doesn't have, with the words behind it: a close one is named, of the command or of one that a later word names.
refuse_option() {
    local name=$1 tip='' close place least=$# sub other
    shift
    # shellcheck disable=SC2046
    close=$(close_names "$name" $(options_of "$command") | tail -n 1)
    if [ -n "$close" ]; then
        tip=$'\n\n'"  tip: a similar argument exists: '--$close'"
        case " ${used[*]} " in *" $close "*) ;; *) used+=("$close") ;; esac
    elif [ "$command" = ulfm ]; then
        for sub in "${commands[@]}"; do
            # shellcheck disable=SC2046
            close=$(close_names "$name" $(options_of "$sub") | tail -n 1)
            place=0
            for other; do [ "$other" = "$sub" ] && break; place=$((place + 1)); done
            if [ -n "$close" ] && [ "$place" -lt $# ] && [ "$place" -lt "$least" ]; then
                least=$place
                tip=$'\n\n'"  tip: '$sub --$close' exists"
            fi
        done
    fi
    refuse_with_usage "$(usage_with "$command" "${used[@]}")" "unexpected argument '--$name' found$tip"
}

# A word that is neither an option nor a command.
refuse_word() {
    local word=$1 close names what usage
    usage=$(usage_of "$command")
    if [ "$command" != ulfm ]; then
        refuse_with_usage "$usage" "unexpected argument '$word' found"
    elif is_command "$word"; then
        refuse_with_usage "$usage" "unexpected argument '$word' found"$'\n\n'"  tip: subcommand '$word' exists; to use it, remove the '--' before it"
    else
        mapfile -t close < <(close_names "$word" "${commands[@]}")
        case ${#close[@]} in
            0) refuse_with_usage "$usage" "unrecognized subcommand '$word'" && return ;;
            1) what='a similar subcommand exists' ;;
            *) what='some similar subcommands exist' ;;
        esac
        printf -v names ", '%s'" "${close[@]}"
        refuse_with_usage "$usage" "unrecognized subcommand '$word'"$'\n\n'"  tip: $what: ${names#, }"
    fi
}

is_command() {
    case $1 in run | migrate | check | draw | explore | replay | race | help) ;; *) return 1 ;; esac
}

# what is wrong with a value that must be a number from $2 to $3, or nothing
fault_of_number() {
    local LC_ALL=C digits=${1#[+-]} most=9223372036854775807 which=large value
    [ "${1:0:1}" != - ] || { most=9223372036854775808 && which=small; }
    if [ -z "$1" ]; then
        echo 'cannot parse integer from empty string'
        return
    fi
    value=${digits%%[!0-9]*}
    value=${value#"${value%%[!0]*}"}
    # A number is found too large at the digit where it is, before a later byte that is none. As texts, since the shell's numbers end there too.
    # shellcheck disable=SC2071
    if [ ${#value} -gt 19 ] || { [ ${#value} -eq 19 ] && [[ $value > $most ]]; }; then
        echo "number too $which to fit in target type"
    elif [ -z "$digits" ] || [ "$digits" != "${digits%%[!0-9]*}" ]; then
        echo 'invalid digit found in string'
    else
        value=${value:-0}
        [ "$which" = large ] || [ "$value" = 0 ] || value=-$value
        [ ${#value} -le 10 ] && [ "$value" -ge "$2" ] && [ "$value" -le "$3" ] || echo "$value is not in $2..=$3"
    fi
}

# The option that waits is taken with its value, if it has one. Fails where that can't be.
take_pending() {
    local option=$pending shown fault
    pending=
    [ -n "$option" ] || return 0
    shown=$(shown_option "$option")
    if [ -z "$has_value" ]; then
        refuse "a value is required for '$shown' but none was supplied"
        return 1
    fi
    take_option "$option" || return
    case $option in
        ranks) fault=$(fault_of_number "$value" 1 64) ;;
        rounds) fault=$(fault_of_number "$value" 1 1000) ;;
        fail) fault=$(fault_of_number "$value" 0 63) ;;
        most | outcome) fault=$(fault_of_number "$value" 1 1000000000) ;;
    esac
    if [ -n "$fault" ]; then
        refuse "invalid value '$value' for '$shown': $fault"
        return 1
    fi
    values[$option]=${value#[+-]}
}

# An option is used, for the first time.
take_option() {
    local option kept=()
    for option in "${used[@]}"; do [ "$option" = "$1" ] || kept+=("$option"); done
    if [ ${#kept[@]} -lt ${#used[@]} ]; then
        used=("${kept[@]}")
        refuse_with_usage "$(usage_of "$command")" "the argument '$(shown_option "$1")' cannot be used multiple times"
        return 1
    fi
    used+=("$1")
}

# A flag is met, which takes no value. Fails where the line is decided by it.
take_flag() {
    if [ -n "$3" ]; then
        local option shown=()
        for option in "${used[@]}"; do case $option in ranks | rounds) ;; *) shown+=("$option") ;; esac done
        refuse_with_usage "$(usage_with "$command" "${shown[@]}" "$1")" "unexpected value '$2' for '--$1' found; no more were expected"
        return 1
    fi
    take_pending || return
    case $1 in
        steps | echo | explain | observed | witness | text | ascii) take_option "$1" ;;
        help) asked=shown text=$command && return 1 ;;
        version) asked=shown text=version && return 1 ;;
    esac
}

# A long option is met, with the words behind it. Fails where the line is decided by it.
take_long() {
    local name=$1 given='' value_given=''
    case $1 in *=*) name=${1%%=*} given=${1#*=} value_given=yes ;; esac
    shift
    case $command:$name in
        race:ranks | race:rounds | race:fail | explore:most | explore:outcome)
            take_pending || return
            pending=$name value=$given has_value=$value_given
            [ -z "$has_value" ] || take_pending
            ;;
        ulfm:help | ulfm:version | run:steps | run:echo | run:help | migrate:help | check:explain | check:observed | check:witness | check:help | draw:text | draw:ascii | draw:help | explore:help | replay:help | race:help) take_flag "$name" "$given" "$value_given" ;;
        *)
            take_pending
            refuse_option "$name" "$@"
            return 1
            ;;
    esac
}

# A bundle of short options is met. It decides the line by its first: help, the version, or one that there isn't.
take_short() {
    local LC_ALL=C first=$1
    [[ $1 =~ ^[$'\xc0'-$'\xff'][$'\x80'-$'\xbf']+ ]] && first=${BASH_REMATCH[0]} || first=${1:0:1}
    case $command$first in
        ulfmV) asked=shown text=version ;;
        *h) take_pending && asked=shown text=$command ;;
        *) refuse_with_usage "$(usage_of "$command")" "unexpected argument '-$first' found" ;;
    esac
    return 1
}

# All words of a command, up to the one that decides the line. Fails where one did, and else `pending` may be left.
walk() {
    local word trailing=
    while [ $# -gt 0 ]; do
        word=$1
        shift
        case $trailing$word in
            --) trailing=yes ;;
            --?*) take_long "${word#--}" "$@" || return ;;
            -?*) take_short "${word#-}" || return ;;
            *)
                if [ -z "$trailing" ] && [ "$command" = ulfm ] && is_command "$word"; then
                    enter "$word" "$@"
                    return 1
                elif [ -z "$trailing" ] && [ -n "$pending" ] && [ -z "$has_value" ]; then
                    value=$word has_value=yes
                else
                    refuse_word "$word"
                    return 1
                fi
                ;;
        esac
    done
}

# The words behind a command's name.
enter() {
    command=$1
    shift
    if [ "$command" = help ]; then
        page_of "$@"
        return
    fi
    walk "$@" && take_pending || return
    case $command in
        run) case " ${used[*]} " in *' steps '*) asked=steps ;; *' echo '*) asked=echo ;; *) asked=run ;; esac ;;
        migrate) asked=migrate ;;
        check) read_check ;;
        draw) asked=draw ;;
        explore) asked=explore ;;
        replay) asked=replay ;;
        race) read_race ;;
    esac
}

# The page that `help` shows of a command, the words being behind it.
page_of() {
    local page=ulfm
    while [ $# -gt 0 ]; do
        if [ "$page" != ulfm ] || ! is_command "$1"; then
            refuse_with_usage "$(usage_of "$page")" "unrecognized subcommand '$1'"
            # the command `help` has no help of its own
            [ "$page" != help ] || text=${text%$'\n\n'*}$'\n'
            return
        fi
        page=$1
        shift
    done
    asked=shown text=$page
}

# What is to be judged, if the options go together.
read_check() {
    local option given=''
    for option in observed explain witness; do
        case " ${used[*]} " in *" $option "*) given+=" $option" ;; esac
    done
    case $given in
        '') asked=check ;;
        ' explain') asked=explain ;;
        ' observed') asked=observed ;;
        ' observed witness') asked=witness ;;
        *) asked=bad text=$'error: \'--witness\' goes with \'--observed\', and \'--explain\' goes without it\n' ;;
    esac
}

# Whether a race has the options that it needs, and a rank that it declares.
read_race() {
    local option missing='' usage
    for option in ranks rounds; do
        [ -n "${values[$option]}" ] || missing+=$'\n  '$(shown_option "$option")
    done
    if [ -n "$missing" ]; then
        refuse_with_usage "$(usage_with race ranks rounds "${used[@]}")" "the following required arguments were not provided:$missing"
    elif [ -n "${values[fail]}" ] && [ "$((10#${values[fail]}))" -ge "$((10#${values[ranks]}))" ]; then
        asked=bad text=$'error: the rank of \'--fail <R>\' must be below \'--ranks <N>\'\n'
    else
        asked=race
    fi
}

# whether each word is UTF-8
is_text() {
    local LC_ALL=C word
    local two=$'[\xc2-\xdf][\x80-\xbf]' three=$'\xe0[\xa0-\xbf][\x80-\xbf]|[\xe1-\xec\xee\xef][\x80-\xbf][\x80-\xbf]|\xed[\x80-\x9f][\x80-\xbf]'
    local four=$'\xf0[\x90-\xbf][\x80-\xbf][\x80-\xbf]|[\xf1-\xf3][\x80-\xbf][\x80-\xbf][\x80-\xbf]|\xf4[\x80-\x8f][\x80-\xbf][\x80-\xbf]'
    for word; do
        [[ $word == *[$'\x80'-$'\xff']* ]] || continue
        word=${word//[$'\x01'-$'\x7f']/}
        [[ $word =~ ^($two|$three|$four)*$ ]] || return 1
    done
}

read_words() {
    local command=ulfm pending='' has_value='' value='' used=()
    local -A values=()
    asked=bad text=
    is_text "$@" || return 0
    walk "$@" || return 0
    refuse_with_usage "$(usage_of ulfm)" "'ulfm' requires a subcommand but one was not provided"$'\n  [subcommands: run, migrate, check, draw, explore, replay, race, help]'
}
