# v30 trace ROM ..: runs a ROM as `v30 run` does, and prints a line for each step, or with --drops for each that drops a byte
take_session '--from --count' '--drops' "$@"
number_within --from 99999999999
number_within --count 99999999999
from=${given[--from]:-1}
to=99999999999
[ -z "${given[--count]:-}" ] || to=$((10#$from + 10#${given[--count]} - 1))
# nothing behind the last line is played
[ "$to" -ge "$((10#${given[--steps]:-10000000}))" ] || given[--steps]=$to
temporary
recur
needs console
play "$room/report" "$from" "$to"
show "$room/report"
end_session "$room/report"
