# v30 unhex FILE -o ROM (--size N | --into IMAGE) [--base ADDRESS] [--half even|odd]: an image, or one half of its bytes, from Intel HEX
take '-o --base --size --into --half' '' "$@"
only_file
[ -n "${given[-o]:-}" ] || odd "'v30 unhex' needs -o FILE"
[ -n "${given[--size]:-}${given[--into]:-}" ] && [ -z "${given[--size]:-}" -o -z "${given[--into]:-}" ] || odd "'v30 unhex' needs --size N or --into IMAGE"
number_within --size 1048576
which_base
which_half
fits "$file" 4194304 "a text of Intel HEX"
[ -z "${given[--into]:-}" ] || fits "${given[--into]}" 1048576 "an image"
aim out "${given[-o]}" "$file" "${given[--into]:-}"
needs fromhex
image=${given[--into]:-}
if [ -z "$image" ]; then
    image=$room/blank
    head -c "$((10#${given[--size]}))" /dev/zero | tr '\0' '\377' >"$image" || fail 1 "cannot write in $room"
fi
if [ -n "$half" ]; then
    half_of "$image" "$half" "$room/half"
    make_hex fromhex "$file" "$room/half" "${base:-0}"
    mv -- "${part[out]}" "$room/read"
    joined "$image" "$half" "$room/read" "${part[out]}"
else
    make_hex fromhex "$file" "$image" "$base"
fi
land out
