# v30 image LINES [-o FILE]: the image that the lines of a listing name
take '-o' '' "$@"
only_file
no_terminal
readable "$file"
no_reading "$file"
open_out "$file"
needs listrom romimage

# first_fault: says which line is the first that the listing would not have, and what it would have there. The listing is made of the bytes
# that the lines name, from the first one's address on; where they stop early, the last of them cannot be judged.
first_fault() {
    local line start left
    line=$(awk '
        !/^[0-9A-F][0-9A-F][0-9A-F][0-9A-F][0-9A-F] ([0-9A-F][0-9A-F])+ / || length($2) > 18 { print NR; exit }' "$file")
    [ -z "$line" ] || { echo "line $line is no line of a listing"; return; }
    start=$((16#$(head -c 5 -- "$file")))
    [ "$start" -ge $((1048576 - 32768)) ] || { echo "line 1 is more than 32768 bytes before the end"; return; }
    awk '{ gsub(/../, "\\x&", $2); printf "%s", $2 }' "$file" >"$room/bytes"
    printf '%b' "$(<"$room/bytes")" >"$room/image"
    left=$((1048576 - start - $(wc -c <"$room/image")))
    head -c 32768 /dev/zero >>"$room/image"
    head -c $((1048576 - start)) "$room/image" >"$room/cut"
    run_program listrom <"$room/cut" >"$room/listed"
    awk -v short=$((left > 0)) '
        FNR == NR { would[FNR] = $0; next }
        fault == 0 && $0 != would[FNR] { fault = FNR }
        END {
            if (fault > 0 && (!short || fault < FNR - 8)) print "line " fault " would be \047" would[fault] "\047"
            else print short ? "they stop before FFFFF" : "the last line has no end"
        }' "$room/listed" "$file"
}

said=$(make_file romimage 2>&1) || {
    status=$?
    [[ $said != *': 16: '* ]] || said="$said: $(first_fault 2>/dev/null)"
    echo "$said" >&2
    exit "$status"
}
close_out
