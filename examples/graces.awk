# gives grace notes that stand beside notes a record of their own: before it, or after it where those notes don't go on; after spines.awk
function grace(k, token) { return name[k] == "**kern" && token ~ /[qQ]/ }
function tell(   k, n, goes_on, graces, notes, both, one, two) {
    n = split(ahead, one, FS)
    split($0, two, FS)
    goes_on = !/^[*!=]/
    for (k = 1; k <= n; k++) if (name[k] == "**kern" && one[k] != "." && !grace(k, one[k]) && two[k] != ".") goes_on = 0
    for (k = 1; k <= n; k++) {
        graces = graces (k > 1 ? FS : "") (grace(k, one[k]) ? one[k] : ".")
        notes = notes (k > 1 ? FS : "") (grace(k, one[k]) ? "." : one[k])
        both = both (k > 1 ? FS : "") (grace(k, one[k]) || two[k] != "." ? two[k] : one[k])
    }
    ahead = ""
    if (goes_on) { print graces; $0 = both } else { print notes; print graces }
}
ahead != "" && !/^!!/ { tell() }
/^[^*!=]/ {
    graces = notes = 0
    for (k = 1; k <= NF; k++) if (grace(k, $k)) graces++; else if (name[k] == "**kern" && $k ~ /[0-9]/) notes++
    if (graces && notes) { ahead = $0; next }
}
{ print; follow() }
