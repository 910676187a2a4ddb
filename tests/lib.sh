# For scripts that run the built programs from outside.

home=$(cd "$(dirname "${BASH_SOURCE[0]}")/.." && pwd)
. "$home/commands/parts/programs.sh"

# has_programs NAME..: ends the test where one of these programs is still to be built
has_programs() {
    local name
    for name; do
        [ -x "$(program "$name")" ] || { echo "${0##*/}: no crates/$name/out/$name: 'rt run' in crates/$name builds it" >&2; exit 2; }
    done
}

# build_second: the second engine's programs; $judge is the one that makes, answers and compares cases
judge=second/target/release/judge
build_second() {
    CARGO_TARGET_DIR=$PWD/second/target cargo build --release --offline --quiet -j1 --manifest-path second/Cargo.toml
}

# bytes HEX..: these bytes
bytes() {
    local pair
    for pair in $*; do printf "\\x$pair"; done
}

# same NAME WANTED GOT: two files that must be the same; counts in $passed and $failed
passed=0 failed=0
same() {
    if cmp -s "$2" "$3"; then
        passed=$((passed + 1))
        echo "ok      $1"
    else
        failed=$((failed + 1))
        echo "FAILED  $1"
        diff "$2" "$3" | head -25
    fi
}

# ---- for tests of ./v30

# enter_room: $v30 is the command, and the test goes on in a temporary folder
enter_room() {
    v30=$home/v30
    room=$(mktemp -d) || exit 2
    trap 'rm -rf "$room"' EXIT
    cd "$room" || exit 2
}

# rom HEX..: an image of 16 bytes, which reset starts at its first; the rest is NOP
rom() {
    { bytes "$@"; bytes 90 90 90 90 90 90 90 90 90 90 90 90 90 90 90 90; } | head -c 16 >rom
}

# ends NAME STATUS [WORD..]: v30 with these words ends so, and writes the lines on standard input and nothing else
ends() {
    local name=$1 status=$2
    shift 2
    { cat; echo "status $status"; } >wanted
    "$v30" "$@" >got 2>&1
    echo "status $?" >>got
    same "$name" wanted got
}

# refuses NAME STATUS LINE [WORD..]: v30 says this one line and ends so, and the log that was there before is as it was
refuses() {
    local name=$1 status=$2 line=$3
    shift 3
    echo 'an earlier log' >old.log
    { echo "v30: $line"; echo "status $status"; echo 'an earlier log'; echo 'nothing else'; } >wanted
    touch got before after
    ls -A >before
    "$v30" "$@" >got 2>&1
    echo "status $?" >>got
    cat old.log >>got
    ls -A >after
    if cmp -s before after; then echo 'nothing else' >>got; else diff before after >>got; fi
    same "$name" wanted got
}
