# A schedule of interrupts with every line that recurs written out, up to the limit of steps; -v limit=N. Its last line is a fault, if there is one.

function fault(text) { print "fault: line " NR " " text; exit }
function is_number(word, most) { return word ~ /^[0-9]+$/ && word + 0 <= most }

{ sub(/\r$/, ""); sub(/#.*/, "") }
NF == 0 { next }
{
    good = is_number($1, 99999999999) && is_number($2, 255) && ($3 == "maskable" || $3 == "unmaskable")
    if (NF == 5) good = good && $4 == "every" && is_number($5, 99999999999) && $5 > 0
    if (!good || NF != 3 && NF != 5)
        fault("is not \047STEP VECTOR maskable\047 or \047STEP VECTOR unmaskable\047, alone or with \047every N\047 behind it")
    if ($1 + 0 < before) fault("has a smaller step than the line before it")
    before = $1 + 0
    step = before
    do {
        if (++calls > 32768) fault("makes more than 32768 calls; fewer --steps or a larger N make less")
        printf "%.0f %d %s\n", step, $2, $3
        step += $5
    } while (NF == 5 && step < limit)
}
