# v30 rom ROM [-o FILE]: the instructions of a ROM image; with --read or --html [--notes FILE] [--seen FILE] its reading, as text or as a page
take '-o --notes --seen' '--read --html' "$@"
only_file
kind=${given[--read]:+text}${given[--html]:+page}
inputs=("$file" ${given[--notes]:+"${given[--notes]}"} ${given[--seen]:+"${given[--seen]}"})
case $kind in
'') [ ${#inputs[@]} -eq 1 ] || odd "--notes and --seen stand with --read or --html" ;;
page) [ -n "${given[-o]:-}" ] || odd "a page needs a file: -o FILE" ;;
textpage) odd "one of --read and --html" ;;
esac
for input in "${inputs[@]}"; do readable "$input"; done
open_out "${inputs[@]}"
needs listrom
case $kind in
'') make_file listrom ;;
*) make_reading ;;
esac
close_out
