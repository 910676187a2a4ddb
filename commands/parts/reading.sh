# The reading of a ROM, which the program in reading/ makes from the lister's lines.

# needs_reading: builds the program, as $reader, where a source is newer
needs_reading() {
    local sources=$home/reading
    reader=$home/programs/reading
    [ ! -d "$home/programs" ] || return 0
    reader=$sources/target/release/reading
    [ ! -x "$reader" ] || [ -n "$(find "$sources/src" "$sources/Cargo.toml" -newer "$reader" -print -quit)" ] || return 0
    command -v cargo >/dev/null || fail 1 "the reading's program is still to be built: no 'cargo' in the path"
    (cd "$sources" && CARGO_TARGET_DIR=$sources/target cargo build --release --offline --quiet) >&2 || fail 1 "the reading's program cannot be built"
}

# make_reading: makes $out, the reading of $file of the $kind; the program says itself what it refuses
make_reading() {
    needs_reading
    launch listrom
    "$reader" "$kind" "$file" "${given[--notes]:-}" "${given[--seen]:-}" -- "${launch[@]}" <"$file" >"$out" || exit
}

# no_reading FILE: fails where it is a reading
no_reading() {
    ! head -n 2 -- "$1" | head -c 100 | grep -qaE '^(A reading of |<!-- A reading of a ROM -->)' ||
        fail 3 "$1: is a reading, which has words beside the lines; 'v30 image' takes the bare lines that 'v30 rom' prints"
}
