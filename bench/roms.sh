# For bench/run and tests/bench: the ROMs that are measured, each with its tape.

roms='mix classes sort-in-rom sort-in-ram sort-rewriting'

# as many riders as find room: 4,096 bytes of log for the classes, 65,535 steps for the sorter
filed=109 sorted=150

# make_rom NAME FOLDER: FOLDER/NAME.rom and FOLDER/NAME.tape
make_rom() {
    local image=$2/$1.rom tape=$2/$1.tape
    case $1 in
    mix) roms/classes/build bench/mix.asm "$image" && cp bench/mix.tape "$tape" ;;
    classes) roms/classes/build roms/classes/classes.asm "$image" && bench/tape "$filed" >"$tape" ;;
    sort-in-rom) roms/classes/build bench/sort.asm "$image" && bench/tape "$sorted" >"$tape" ;;
    sort-in-ram) roms/classes/build bench/sort.asm "$image" COPIED && bench/tape "$sorted" >"$tape" ;;
    sort-rewriting) roms/classes/build bench/sort.asm "$image" COPIED REWRITING && bench/tape "$sorted" >"$tape" ;;
    esac
}

# the calls of a case stream (version 2) that run a ROM
old_run=1 quicker_run=5

# in_result OFFSET BYTES: a number of the result on standard input
in_result() {
    od -An -v -j "$1" -N "$2" -t "u$2" | tr -d ' '
}
