# writes the rest of a whole bar, 1r in any meter, with the duration of the meter
function meter(text,   part) {
    split(text, part, "/")
    whole = text in written ? written[text] : part[2] "%" part[1]
    is_short = part[1] < part[2]
}
function tell(   k, n, columns, line, token) {
    for (n = 1; n <= lines; n++) {
        columns = split(held[n], token, "\t")
        line = ""
        for (k = 1; k <= columns; k++) {
            if (held[n] ~ /^[^*!=]/ && token[k] ~ /^1[a-gA-G]*r/ && (is_short || begun && !steered && tokens[k] == 1)) sub(/^1/, whole, token[k])
            line = line (k > 1 ? "\t" : "") token[k]
        }
        print line
        if (match(held[n], /^[*](\t[*])*M[0-9]+\/[0-9]+/)) meter(substr(held[n], index(held[n], "M") + 1, RLENGTH - index(held[n], "M")))
    }
    lines = steered = 0
    for (k in tokens) delete tokens[k]
}
BEGIN {
    FS = "\t"; whole = 1
    n = split("2/4 2 3/4 2. 4/4 1 2/2 1 3/8 4. 6/8 2. 12/8 1. 3/2 1. 6/4 1. 4/2 0", known, " ")
    for (k = 1; k < n; k += 2) written[known[k]] = known[k + 1]
}
/^=[0-9]/ { tell(); begun = 1; print; next }
/^[*]/ && /[*][\^v+x](\t|$)/ { steered = 1 }
/^[^*!=]/ { for (k = 1; k <= NF; k++) if ($k != "." && $k !~ /[qQ]/) tokens[k]++ }
{ held[++lines] = $0 }
END { tell() }
