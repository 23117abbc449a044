# for other scripts: where the columns of a score come from. `follow()` at each record keeps up `columns` and, of each column, the field of
# the opening record in `spine` and its exclusive interpretation in `name`
function opened(   k) { columns = NF; for (k = 1; k <= NF; k++) { spine[k] = k; name[k] = $k } }
function follow(   k, n, first, from) {
    if (!/^[*]/) return
    if (!columns) { opened(); return }
    for (k = 1; k <= columns; k++) {
        from[k] = k
        if ($k == "*x" && !first) first = k; else if ($k == "*x") { from[k] = first; from[first] = k }
        if ($k ~ /^[*][*]/) name[k] = $k
    }
    for (k = 1; k <= columns; k++) { old_spine[k] = spine[k]; old_name[k] = name[k] }
    for (k = 1; k <= columns; k++) {
        if ($k == "*-" || $k == "*v" && k > 1 && $(k - 1) == "*v") continue
        spine[++n] = old_spine[from[k]]; name[n] = old_name[from[k]]
        if ($k == "*^" || $k == "*+") { spine[++n] = old_spine[from[k]]; name[n] = old_name[from[k]] }
    }
    columns = n
}
BEGIN { FS = "\t" }
