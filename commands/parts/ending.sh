# However the command ends, what it started ends with it and its rooms are gone.

trap 'for room in "${rooms[@]}"; do rm -rf "$room"; done' EXIT

# stop STATUS: ends after a signal; $running is a program, or less than 0 a group of them
stop() {
    trap '' INT TERM HUP
    if [ -n "$running" ]; then
        kill -TERM -- "$running" 2>/dev/null
        wait "${running#-}" 2>/dev/null
    fi
    [ ! -t 2 ] || echo >&2
    exit "$1"
}
trap 'stop 129' HUP
trap 'stop 130' INT
trap 'stop 143' TERM
