# v30 meet TAPE: the riders of a tape, as the demonstration ROM files them
take '' '' "$@"
only_file
fits "$file" 1048576 "a tape"
temporary
rom=$home/roms/classes/classes.rom until= given[--tape]=$file part[log]=$room/log
needs console listlog
play "$room/report" '' ''
run_program listlog <"$room/log" >"$room/listing" || fail 1 "the listing broke off"
awk -f "$home/commands/meet.awk" "$room/report" "$room/listing" >"$room/table" 2>/dev/null || fail 1 "cannot write in $room"
show "$room/table"
! grep -q '^WARNING: ' "$room/table" || exit 3
