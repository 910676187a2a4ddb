# The riders of a meet, from the report of a run of roms/classes and from the listing of its log: what the ROM read of each, and what it
# displayed.

function warn(text) { warnings = warnings "WARNING: " text "\n" }

# the report, which is the first file
FNR == NR && $1 == "tape" { unread = $4 - $2; next }
FNR == NR && $1 == "stopped" { number = $3 + 0; next }
FNR == NR { next }

$2 == "IN" && season == "" {
    season = $4
    printf "The season of \047%s\n\nborn  age  class     time\n", season
    if (season ~ /[A-F]/) warn("the season\047s year is " season ", which is no pair of digits")
    next
}
$2 == "IN" {
    if (parts == 0 && $4 == "FF") { ended = 1; next }
    part[++parts] = $4
    if ($4 ~ /[A-F]/) warn("rider " riders + 1 " has " $4 ", which is no pair of digits")
    next
}
$2 == "OUT" {
    d[++shown] = $4
    if (shown < 6) next
    class = d[1] == "00" ? "none" : d[1] " to " d[1] + 4
    printf "\047%s   %s   %-8s  %s:%s.%s%s\n", part[1], d[2], class, d[4], d[5], d[6], d[3] == "01" ? "   born in the century before" : ""
    riders++
    parts = shown = 0
}

END {
    if (season == "") warn("the tape is empty: it has not even the season\047s year")
    else if (number == 6) warn("the log is full: the riders behind " riders + 0 " are not shown")
    else if (parts > 0) warn("rider " riders + 1 " is cut short: the tape has " parts " of his 4 bytes")
    else if (!ended) warn("the tape does not end with FF")
    if (ended && unread > 0) warn(unread " bytes behind FF are left unread")
    if (warnings != "") printf "%s%s", season == "" ? "" : "\n", warnings
}
