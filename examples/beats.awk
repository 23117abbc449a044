# of a grid of STEP, the records that fall on a BEAT: counted from each numbered barline, and in an upbeat back from the first. It tells
# which bars have no whole number of beats, but for the upbeat and the last bar
function tell(line, place) { if (place % every == 0) print line }
function upbeat(   k) {
    for (k = 1; k <= held; k++) if (k in place) tell(line[k], place[k] + every * count - count); else print line[k]
}
BEGIN { every = step / beat }
/^=[0-9]/ {
    if (!begun) upbeat(); else if (count % every) odd = odd " " bar
    begun = 1; count = 0; bar = substr($1, 2) + 0
}
/^[*!=]/ { if (begun) print; else line[++held] = $0; next }
begun { tell($0, count++); next }
{ line[++held] = $0; place[held] = count++ }
END {
    if (!begun) { count = 0; upbeat() }
    if (odd) print "no whole number of beats in bar" odd > "/dev/stderr"
}
