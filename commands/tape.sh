# v30 tape TEXT [-o TAPE]: the tape whose bytes a text names; v30 tape --show TAPE [-o TEXT]: the way back
take '-o' '--show' "$@"
only_file
if [ -n "${given[--show]:-}" ]; then
    fits "$file" 1048576 "a tape"
    open_out "$file"
    od -An -v -tx1 -w16 -- "$file" 2>/dev/null >"$room/bytes" && tr a-f A-F <"$room/bytes" | sed 's/^ //' >"$out" &&
        [ "$(tr -d ' \n' <"$out" | wc -c)" -eq $((2 * $(wc -c <"$file"))) ] || fail 1 "cannot write in $room"
else
    no_terminal
    readable "$file"
    open_out "$file"
    awk -v wrong="$room/wrong" '
        { sub(/\r$/, ""); sub(/;.*/, "") }
        {
            for (i = 1; i <= NF; i++)
                if ($i ~ /^[0-9A-Fa-f][0-9A-Fa-f]$/) { printf "\\x%s", $i; bytes++ }
                else { printf "line %d: \047%s\047 is not a byte of two hex digits\n", NR, $i >wrong; break }
        }
        END { if (bytes > 1048576) print "too long: a tape has at most 1048576 bytes" >wrong }' "$file" >"$room/bytes" 2>/dev/null ||
        fail 1 "cannot write in $room"
    if [ -s "$room/wrong" ]; then
        name=$file awk '{ print "v30: " ENVIRON["name"] ": " $0 }' "$room/wrong" >&2
        exit 3
    fi
    printf '%b' "$(<"$room/bytes")" 2>/dev/null >"$out" && [ "$(wc -c <"$out")" -eq $(($(wc -c <"$room/bytes") / 4)) ] ||
        fail 1 "cannot write in $room"
fi
close_out
