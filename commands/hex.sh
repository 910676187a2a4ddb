# v30 hex ROM -o FILE [--base ADDRESS] [--half even|odd]: a ROM image, or one chip of a 16-bit board's two, as Intel HEX
take '-o --base --half' '' "$@"
only_file
[ -n "${given[-o]:-}" ] || odd "'v30 hex' needs -o FILE"
which_base
which_half
fits "$file" 1048576 "an image"
aim out "${given[-o]}" "$file"
needs tohex
image=$file
if [ -n "$half" ]; then
    image=$room/half
    half_of "$file" "$half" "$image"
    # a chip's own addresses begin at 0
    base=${base:-0}
fi
make_hex tohex "$image" "$base"
land out
