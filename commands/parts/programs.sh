# How built programs are started. In a clone each lies in the out/ of its crate, where rt left it; a packed folder has all of them in programs/,
# beside the C library that they were linked for.

# program NAME: where it is
program() {
    if [ -d "$home/programs" ]; then echo "$home/programs/$1"; else echo "$home/crates/$1/out/$1"; fi
}

# launch NAME: the words that start a program, as $launch
launch() {
    local lib=$home/programs/lib
    launch=("$(program "$1")")
    [ ! -d "$lib" ] || launch=("$lib/ld-linux-x86-64.so.2" --library-path "$lib" "${launch[@]}")
}

# run_program NAME [WORD..]
run_program() {
    launch "$1"
    shift
    "${launch[@]}" "$@"
}

# work NAME [WORD..]: as run_program, for long work: a signal to the command ends the program too
running=
work() {
    launch "$1"
    shift
    "${launch[@]}" "$@" <&0 &
    running=$!
    wait "$running"
    local status=$?
    running=
    return "$status"
}
