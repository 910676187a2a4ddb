# Intel HEX: the words of hex and unhex, and the two halves of an image.

# which_base: the address of --base in decimal as $base, empty without it
which_base() {
    base=${given[--base]:-}
    [ -z "$base" ] || [[ $base =~ ^(0x[0-9A-Fa-f]{1,6}|[0-9]{1,7})$ ]] || odd "'$base' is no address"
    case $base in
    '') ;;
    0x*) base=$(($base)) ;;
    *) base=$((10#$base)) ;;
    esac
}

# which_half: 0 for the even bytes, 1 for the odd ones, as $half; empty without --half
which_half() {
    case ${given[--half]:-} in
    '') half= ;;
    even) half=0 ;;
    odd) half=1 ;;
    *) odd "--half is even or odd" ;;
    esac
}

# bytes_to FILE: the bytes that standard input names as \xHH
bytes_to() {
    local text
    text=$(cat)
    printf '%b' "$text" 2>/dev/null >"$1" && [ "$(wc -c <"$1")" -eq $((${#text} / 4)) ] || fail 1 "cannot write in $room"
}

# half_of IMAGE HALF FILE: every other byte of an image of an even length
half_of() {
    [ $(($(wc -c <"$1") % 2)) -eq 0 ] || fail 1 "$1: has an odd number of bytes, and so no two halves"
    od -An -v -tx1 -w2 -- "$1" | awk -v half="$2" '{ printf "\\x%s", $(half + 1) }' | bytes_to "$3"
}

# joined IMAGE HALF BYTES FILE: the image with these bytes for its half
joined() {
    paste -d ' ' <(od -An -v -tx1 -w2 -- "$1") <(od -An -v -tx1 -w1 -- "$3") |
        awk -v half="$2" '{ $(half + 1) = $3; printf "\\x%s\\x%s", $1, $2 }' | bytes_to "$4"
}

# make_hex PROGRAM FILE WORD..: what the program makes of a file stands in ${part[out]}; a refusal is one line, and ends with 3
make_hex() {
    local said program=$1
    shift
    said=$(run_program "$program" "$@" 2>&1 >"${part[out]}") || fail 1 "$file: $program broke off"
    case $said in
    '') ;;
    [0-9]*) fail 3 "$file: $said" ;;
    *) fail 1 "$file: ${said#v30: }" ;;
    esac
}
