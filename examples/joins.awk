# writes a record for each join where one record joins the columns of several spines; after spines.awk
function put(first, last,   k, line) {
    for (k = 1; k <= columns; k++) line = line (k > 1 ? FS : "") (k >= first && k <= last ? "*v" : "*")
    $0 = line
    print
    follow()
}
/^[^*]/ || !columns { print; if (!/^!/) follow(); next }
{
    runs = others = alone = 0
    for (k = 1; k <= NF; k++) {
        if ($k != "*v") { others += $k != "*"; continue }
        if (k == 1 || $(k - 1) != "*v" || spine[k] != spine[k - 1]) first[++runs] = k
        last[runs] = k
    }
    for (k = 1; k <= runs; k++) alone += first[k] == last[k]
    if (runs < 2 || others || alone) { print; follow(); next }
    for (gone = run = 1; run <= runs; run++) { put(first[run] - gone + 1, last[run] - gone + 1); gone += last[run] - first[run] }
}
