# the coarsest step of timebase that has every duration of **recip columns: the least common multiple of what each needs, and of STEP
function gcd(a, b) { return b ? gcd(b, a % b) : a }
BEGIN { if (!step) step = 1 }
/^[*!=]/ { next }
{
    for (k = 1; k <= NF; k++) if ($k ~ /[0-9]/) {
        parts = 1; whole = $k ~ /^0/ ? 1 : $k + 0
        if (match($k, /%[0-9]+/)) parts = substr($k, RSTART + 1, RLENGTH - 1)
        for (dots = gsub(/[.]/, "", $k); dots > 0; dots--) { parts = parts * 2 + 1; whole *= 2 }
        whole /= gcd(parts, whole)
        step *= whole / gcd(step, whole)
    }
}
END { print step }
