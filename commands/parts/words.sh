# The words of a command.

declare -A given=()
words=()

# take OPTIONS FLAGS WORD..: sorts the words into options with their values, flags, and others
take() {
    local options=" $1 " flags=" $2 " word
    shift 2
    while [ $# -gt 0 ]; do
        word=$1
        shift
        case $word in
        -?*)
            [ -z "${given[$word]:-}" ] || odd "$word stands twice"
            if [[ $flags == *" $word "* ]]; then
                given[$word]=yes
                continue
            fi
            [[ $options == *" $word "* ]] || odd "there is no option '$word'"
            [ $# -gt 0 ] && [ -n "$1" ] || odd "$word stands without its value"
            given[$word]=$1
            shift
            ;;
        *) words+=("$word") ;;
        esac
    done
}

# only_file: the one file that a command takes, as $file
only_file() {
    [ ${#words[@]} -eq 1 ] && [ -n "${words[0]}" ] || odd "'v30 $command' takes one file"
    file=${words[0]}
}

# is_within WORD MOST: whether a word is a number from 0 to MOST, which has at most eleven digits
is_within() {
    local digits=$1
    [[ $digits =~ ^[0-9]+$ ]] || return 1
    digits=${digits#"${digits%%[!0]*}"}
    [ ${#digits} -le 11 ] && [ "${digits:-0}" -le "$2" ]
}

# number_within OPTION MOST [REMARK]: sees that an option's value, where there is one, is such a number
number_within() {
    [ -z "${given[$1]:-}" ] || is_within "${given[$1]}" "$2" || fail 2 "$1 takes a number from 0 to $2${3:-}"
}
