# For the try of a ROM, in its folder: every tape on the proved engine and on the second one, and what was expected of it.

. ../../tests/lib.sh
has_programs console listlog listlog_old
second=../../second
(cd "$second" && cargo build --quiet --release --offline) || exit 2
programs=$(cd "$second" && realpath "${CARGO_TARGET_DIR:-target}")/release

build=../classes/build
ram_bytes=4096
steps=100000

room=$(mktemp -d) || exit 2
trap 'rm -rf "$room"' EXIT

# refuses NAME LINES MESSAGE: the assembler says this of a source with these lines from the second on, and makes no image
refuses() {
    rm -f "$room/refused.rom"
    printf 'ROM_SEGMENT EQU 0FFFFh\n%s\n' "$2" >"$room/refused.asm"
    "$build" "$room/refused.asm" "$room/refused.rom" >"$room/got" 2>&1 && echo "accepted" >>"$room/got"
    [ ! -e "$room/refused.rom" ] || echo "made an image" >>"$room/got"
    echo "build: refused.asm: $3" >"$room/wanted"
    same "build: $1" "$room/wanted" "$room/got"
}

# expects ENGINE NAME SAID LISTING: why the tape's run stopped, and the listing of its log; step counts are not compared
expects() {
    grep "^$2 " expected/stops.txt >"$room/wanted"
    echo "$2 $(sed -n 's/^stopped with \([0-9]*\):.*/\1/p' "$3")" >"$room/got"
    same "$2: $1: $(grep '^stopped' "$3")" "$room/wanted" "$room/got"
    sed -E 's/^[0-9]+\+? (IN|OUT) /\1 /' "$4" >"$room/got"
    same "$2: $1: the log" "expected/$2.txt" "$room/got"
}

# plays ROM: the tapes of the folder
plays() {
    local rom=$1 tape name
    for tape in tapes/*.tape; do
        name=$(basename "$tape" .tape)

        sed 's/;.*//' "tapes/$name.txt" | tr -d ' \n' | tr 'A-F' 'a-f' >"$room/wanted"
        od -An -v -tx1 "$tape" | tr -d ' \n' >"$room/got"
        same "$name: the tape holds what its text says" "$room/wanted" "$room/got"

        rm -f "$room/log" "$room/second.log"
        ../../v30 run "$rom" --tape "$tape" --log "$room/log" --ram "$ram_bytes" --steps "$steps" >"$room/said"
        ../../v30 log "$room/log" >"$room/listing"
        expects "proved engine" "$name" "$room/said" "$room/listing"

        "$programs/play" "$rom" "$tape" "$room/second.log" "$ram_bytes" "$steps" >"$room/second.said" 2>&1
        "$programs/judge" list new <"$room/second.log" >"$room/second.listing"
        expects "second engine" "$name" "$room/second.said" "$room/second.listing"

        same "$name: both logs, byte for byte" "$room/second.log" "$room/log"
        sed 's/.*; //' "$room/second.said" >"$room/wanted"
        echo "$(sed -n 's/^steps //p' "$room/said") steps, $(sed -n 's/^bus cycles //p' "$room/said") bus cycles" >"$room/got"
        same "$name: both counts: $(cat "$room/wanted")" "$room/wanted" "$room/got"
    done
    echo "$passed passed, $failed failed"
    [ "$failed" -eq 0 ]
}
