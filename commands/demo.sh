# v30 demo: the demonstration meet, and how the machine stopped
[ $# -eq 0 ] || odd "'v30 demo' takes nothing more"
. "$home/commands/meet.sh" "$home/roms/classes/tapes/season-06.tape"
{ echo; cat "$room/report"; } >"$room/rest"
show "$room/rest"
