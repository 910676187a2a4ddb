# Programs are built when a source has changed since the last time; `rt` proves what the change reaches, and only a proved program is built.

kept=$home/target/v30

# are_there NAME..: whether these programs are there, of whatever sources
are_there() {
    local name
    for name; do [ -x "$(program "$name")" ] || return 1; done
}

# is_built NAME..: whether these programs were built from the sources as they stand
is_built() {
    [ -f "$kept/built" ] && are_there "$@" && [ ! "$home/crates.txt" -nt "$kept/built" ] &&
        [ -z "$(find "$home/crates" -mindepth 2 -name out -prune -o -newer "$kept/built" -print -quit)" ]
}

# all_programs: those of all commands
all_programs() {
    sed -n "s/^needs \([a-z]\)/\1/p" "$home"/commands/*.sh | tr " " "\n" | sort -u
}

# needs NAME..: sees that these programs can be run; whatever is to be built is built in one go, for all commands
needs() {
    [ ! -d "$home/programs" ] || return 0
    command -v rt >/dev/null || fail 1 "the Rattle kit is missing: no 'rt' in the path"
    is_built "$@" && return
    mkdir -p "$kept" 2>/dev/null && { : >>"$kept/lock"; } 2>/dev/null ||
        fail 1 "$home/target: may not be written, and the programs are still to be built"
    exec {lock}>"$kept/lock"
    if ! flock -n "$lock"; then
        echo "v30: the programs are being built by another start; waiting for it" >&2
        flock "$lock" &
        wait $!
    fi
    is_built "$@" || build
    exec {lock}>&-
    are_there "$@" || fail 1 "$* is proved and its program is gone: remove $kept and try again"
}

# reach NAME..: the crates that these stand on, with themselves
reach() {
    awk -v names="$*" '
        { sub(/#.*/, "") }
        split($0, half, ":") == 2 { gsub(/[ \t]/, "", half[1]); below[half[1]] = half[2] }
        function visit(name, list, n, i) {
            if (name in seen || !(name in below)) return
            seen[name]; print name
            n = split(below[name], list, " ")
            for (i = 1; i <= n; i++) visit(list[i])
        }
        END { n = split(names, first, " "); for (k = 1; k <= n; k++) visit(first[k]) }' "$home/crates.txt"
}

# how_far COUNT: says how many crates are proved, on one line that moves; to a file, a line a minute
how_far() {
    local done minutes=$(((SECONDS - began) / 60))
    done=$(sed -nE 's/^crate ([a-z0-9_]+): modules .*/\1/p' "$kept/build.txt" | sort -u | wc -l)
    local line="v30: crate $((done < $1 ? done + 1 : $1)) of $1, $minutes minutes so far"
    if [ -t 2 ]; then
        printf '\r%s ' "$line" >&2
    elif [ "$minutes" -ne "$told" ]; then
        told=$minutes
        echo "$line" >&2
    fi
}

# at_once: how many crates are proved at a time: as many as there are processors, and 4 GB of memory
at_once() {
    awk -v most="$(nproc)" '/^MemAvailable:/ { n = int($2 / 4000000); print n < 1 ? 1 : n < most ? n : most }' /proc/meminfo
}

# prove NAME..: where many crates are still to be built, all are proved, several at a time; then rt run proves each program, over what is proved,
# builds it, and starts it on nothing. How that ends is the program's own, so rt's line that it starts it says that it is built
prove() {
    local name missing=0
    for name in $(reach "$@"); do [ -d "crates/$name/out" ] || missing=$((missing + 1)); done
    [ "$missing" -lt 10 ] || rt all check --jobs "$(at_once)"
    for name; do
        (cd "crates/$name" && exec rt run)
        grep -q "^rt: running out/$name;" "$kept/build.txt" || return 1
    done
}

build() {
    local names count began=$SECONDS told=0 status
    names=$(all_programs)
    count=$(reach $names | wc -l)
    touch "$kept/begun"
    echo "v30: proving and building the programs from their sources: $count crates, from nothing half an hour on two processors" >&2
    # it is looked at before the prover has begun to write it
    : >"$kept/build.txt"
    # a group of its own, so that a signal can end every prover
    set -m
    (cd "$home" && prove $names) </dev/null >"$kept/build.txt" 2>&1 {lock}>&- &
    running=-$!
    set +m
    while kill -0 -- "${running#-}" 2>/dev/null; do
        how_far "$count"
        sleep 0.3
    done
    wait "${running#-}"
    status=$?
    running=
    [ ! -t 2 ] || echo >&2
    [ "$status" -eq 0 ] || fail 1 "the programs cannot be built; $kept/build.txt says why"
    mv "$kept/begun" "$kept/built"
}
