# The words of `v30 run` and `v30 trace`, and the console that plays them.

# take_session OPTIONS FLAGS WORD..: the words of a session and these options and flags more; $rom and all other $inputs can be read
take_session() {
    local option bytes
    take "--tape --steps --ram --interrupts --until --ram-in $1" "$2" "${@:3}"
    [ ${#words[@]} -gt 0 ] || odd "which ROM?"
    [ ${#words[@]} -eq 1 ] || odd "'${words[1]}' is one file too many"
    rom=${words[0]}
    [ -n "$rom" ] || odd "the ROM's name is empty"
    fits "$rom" 1048576 "a ROM"
    bytes=$(size "$rom")
    [ "$bytes" != 0 ] || fail 1 "$rom: is empty"
    number_within --steps 99999999999
    number_within --ram $((1048576 - ${bytes:-0})) ", what the ROM leaves of 1048576"
    until=
    [ -z "${given[--until]:-}" ] || until=$(linear "${given[--until]}") || fail 2 "--until takes an address in hex, as FFF2A or FFF0:002A"
    inputs=("$rom")
    for option in --tape --interrupts --ram-in; do
        [ -n "${given[$option]:-}" ] || continue
        case $option in
        --tape) fits "${given[$option]}" 1048576 "a tape" ;;
        --interrupts) fits "${given[$option]}" 1048576 "a schedule of interrupts" ;;
        --ram-in) fits "${given[$option]}" $((10#${given[--ram]:-$((1048576 - ${bytes:-0}))})) RAM ;;
        esac
        inputs+=("${given[$option]}")
    done
}

# linear ADDRESS: the number of an address that is five hex digits at most, or PS:PC
linear() {
    if [[ $1 =~ ^([0-9A-Fa-f]{1,4}):([0-9A-Fa-f]{1,4})$ ]]; then
        echo $(((16#${BASH_REMATCH[1]} * 16 + 16#${BASH_REMATCH[2]}) % 1048576))
    elif [[ $1 =~ ^[0-9A-Fa-f]{1,5}$ ]]; then
        echo $((16#$1))
    else
        return 1
    fi
}

# recur: the schedule with every recurring line written out, in the order of steps; it needs a $room
recur() {
    local last
    [ -n "${given[--interrupts]:-}" ] || return 0
    if [ ! -f "${given[--interrupts]}" ]; then
        cat -- "${given[--interrupts]}" >"$room/given" 2>/dev/null || fail 1 "cannot write in $room"
        given[--interrupts]=$room/given
    fi
    grep -q every -- "${given[--interrupts]}" || return 0
    awk -v limit=$((10#${given[--steps]:-10000000})) -f "$home/commands/schedule.awk" "${given[--interrupts]}" >"$room/calls" 2>/dev/null &&
        sort -s -n -k 1,1 "$room/calls" >"$room/schedule" 2>/dev/null || fail 1 "cannot write in $room"
    last=$(tail -n 1 "$room/calls")
    [[ $last != fault:* ]] || fail 1 "--interrupts: ${last#fault: }"
    given[--interrupts]=$room/schedule
}

# play REPORT FROM TO: plays the session, tracing these steps, or by --drops those of them that drop a byte; ends where the console does not begin or breaks off
play() {
    work console "$rom" "${given[--tape]:-}" "${given[--interrupts]:-}" "${part[log]:-}" "${given[--ram]:-}" "${given[--steps]:-}" \
        "$until" "${given[--ram-in]:-}" "${part[ram-out]:-}" "${part[seen]:-}" "$2" "$3" "$1" "${given[--drops]:-}"
    case $? in
    0) ;;
    141) exit 0 ;;
    *) fail 1 "the console broke off" ;;
    esac
    [[ -f $1 && $(tail -n 1 "$1") =~ ^'stopped with '([0-8])': ' ]] || exit 1
}

# end_session REPORT: the status of a session
end_session() {
    case $(tail -n 1 "$1") in
    'stopped with 0: '* | 'stopped with 8: '*) exit 0 ;;
    *) exit 3 ;;
    esac
}
