# the interval from the lowest note of the first column to the highest of the second, in semitones, without octaves
BEGIN { FS = "\t" }
/^[*!=]/ { next }
{
    bass = top = ""
    n = split($1, low, " "); for (k = 1; k <= n; k++) if (low[k] ~ /[0-9]/ && (bass == "" || low[k] < bass)) bass = low[k] + 0
    n = split($2, high, " "); for (k = 1; k <= n; k++) if (high[k] ~ /[0-9]/ && (top == "" || high[k] > top)) top = high[k] + 0
    if (bass != "" && top != "") print (top - bass + 120) % 12
}
