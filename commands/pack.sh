# v30 pack FOLDER: all that is needed to run v30 where there is neither kit nor compiler
take '' '' "$@"
[ ${#words[@]} -eq 1 ] && [ -n "${words[0]}" ] || odd "'v30 pack' takes one folder"
folder=$(readlink -f -- "${words[0]}") && [ -n "$folder" ] || fail 1 "${words[0]}: its folder does not exist"
[ ! -e "$folder" ] || fail 1 "${words[0]}: is there already"
new_room "$(dirname -- "$folder")" || fail 1 "${words[0]}: its folder may not be written"
names=$(all_programs)
needs $names
needs_reading

kit=$(dirname "$(rt doc)")
packed=$room/packed
mkdir -p "$packed/programs/lib" "$packed/roms/classes" &&
    cp "$home/v30" "$home/README.md" "$packed/" && cp -R "$home/commands" "$packed/" &&
    (for name in $names; do cp "$(program "$name")" "$packed/programs/" || exit; done) && cp "$reader" "$packed/programs/" &&
    cp -L "$kit"/toolchain/lib/ld-linux-x86-64.so.2 "$kit"/toolchain/lib/libc.so.6 "$packed/programs/lib/" &&
    cp -R "$home/roms/classes/classes.rom" "$home/roms/classes/tapes" "$packed/roms/classes/" &&
    mv -T -- "$packed" "$folder" || fail 1 "$folder: cannot be written"
