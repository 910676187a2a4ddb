# v30 run ROM ..: runs a ROM from reset on, and says why it stopped
take_session '--log --ram-out --seen' '' "$@"
for option in log ram-out seen; do
    [ -z "${given[--$option]:-}" ] || aim "$option" "${given[--$option]}" "${inputs[@]}"
done
temporary
recur
needs console
play "$room/report" '' ''
show "$room/report"
for name in "${!target[@]}"; do land "$name"; done
end_session "$room/report"
