# repairs what many files have: a byte order mark, CR at line ends, blank lines, tabs that align columns, empty cells
BEGIN { FS = "\t" }
NR == 1 { sub(/^\357\273\277/, "") }
{ sub(/\r$/, "") }
/^[ \t]*$/ { next }
/^!!/ { print; next }
{
    if (NF != spines) { gsub(/\t+/, "\t"); sub(/^\t/, ""); sub(/\t$/, "") }
    if (!spines) spines = NF
    null = /^\t*[*]/ ? "*" : /^\t*!/ ? "!" : "."
    line = ""
    for (k = 1; k <= NF; k++) line = line (k > 1 ? FS : "") ($k == "" ? null : $k)
    print line
    if (null == "*") for (k = NF; k > 0; k--) spines += ($k == "*^" || $k == "*+") - ($k == "*-" || $k == "*v" && k < NF && $(k + 1) == "*v")
}
