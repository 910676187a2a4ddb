# Files that are read and written. What is written stands in a room beside its place until it is whole; rooms are gone whatever happens.

rooms=()
declare -A target=() part=()

# new_room FOLDER: makes a room there, as $room
new_room() {
    room=$(mktemp -d -- "$1/.v30.XXXXXX" 2>/dev/null) && rooms+=("$room")
}

# temporary: makes a room where temporary files go, as $room
temporary() {
    new_room "${TMPDIR:-/tmp}" || fail 1 "no room for temporary files in ${TMPDIR:-/tmp}"
}

# readable FILE: fails where it cannot be read
readable() {
    [ -e "$1" ] || fail 1 "$1: there is no such file"
    [ ! -d "$1" ] || fail 1 "$1: is a folder"
    [ -r "$1" ] || fail 1 "$1: may not be read"
    [ ! -f "$1" ] || head -c 1 -- "$1" >/dev/null 2>&1 || fail 1 "$1: cannot be read"
}

# size FILE: the bytes of an ordinary file, and nothing for a pipe, whose bytes are known when they are read
size() {
    [ ! -f "$1" ] || stat -L -c %s -- "$1"
}

# fits FILE MOST WHAT: fails where a file cannot be read or has too many bytes
fits() {
    readable "$1"
    local bytes
    bytes=$(size "$1")
    [ "${bytes:-0}" -le "$2" ] || fail 1 "$1: too long: $3 has at most $2 bytes"
}

# aim NAME FILE INPUT..: sees that a file can be written and is none of the inputs nor another output; ${part[NAME]} is where to write
aim() {
    local name=$1 file=$2 other
    shift 2
    case $file in */) fail 1 "$file: names a folder" ;; esac
    [ ! -d "$file" ] || fail 1 "$file: is a folder"
    [ ! -e "$file" ] || [ -f "$file" ] || fail 1 "$file: is no ordinary file"
    [ ! -e "$file" ] || [ -w "$file" ] || fail 1 "$file: may not be written"
    for other; do
        [ -z "$other" ] || ! [ "$file" -ef "$other" ] || fail 1 "$file: would replace what is read"
    done
    target[$name]=$(readlink -f -- "$file") && [ -n "${target[$name]}" ] || fail 1 "$file: its folder does not exist"
    for other in "${!target[@]}"; do
        [ "$other" = "$name" ] || [ "${target[$other]}" != "${target[$name]}" ] || fail 1 "$file: would be written twice"
    done
    new_room "$(dirname -- "${target[$name]}")" || fail 1 "$file: its folder may not be written"
    part[$name]=$room/part
}

# land NAME: puts what was written in its place, with the rights of what it replaces
land() {
    [ ! -e "${target[$1]}" ] || chmod --reference="${target[$1]}" "${part[$1]}" 2>/dev/null
    mv -f -- "${part[$1]}" "${target[$1]}" 2>/dev/null || fail 1 "${target[$1]}: cannot be written"
}

# open_out: where a command with -o writes, as $out
open_out() {
    if [ -n "${given[-o]:-}" ]; then
        aim out "${given[-o]}" "$@"
    else
        temporary
        part[out]=$room/part
    fi
    out=${part[out]}
}

# close_out: what stands in $out is whole
close_out() {
    if [ -n "${given[-o]:-}" ]; then land out; else show "$out"; fi
}

# no_terminal: bytes that are no text go to a terminal for nobody
no_terminal() {
    [ -n "${given[-o]:-}" ] || [ ! -t 1 ] || odd "this makes bytes that are no text: name their file by -o"
}

# make_file PROGRAM: makes $out of $file; a refusal is one line, and ends with 3 where it has a number
make_file() {
    local said
    # what it says comes by a pipe, which is never full
    said=$(run_program "$1" <"$file" 2>&1 >"$out") || fail 1 "$file: $1 broke off"
    [[ ! $said =~ ^[a-z]+:\ [0-9]+:\  ]] || fail 3 "$file: ${said#*: }"
    [ -z "$said" ] || fail 1 "$file: ${said#*: }"
}
