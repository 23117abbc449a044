# yank -n '^=' -r 100-$ in awk: the bars from 100 on, and all interpretations. No spine is followed and nothing is refused.
BEGIN { FS = "\t" }
/^[*]/ { print; next }
/^!/ { if (bar >= 100) print; next }
{
    for (i = 1; i <= NF; i++)
        if ($i ~ /^=/) {
            bar = match($i, /^=[0-9]+/) ? substr($i, 2, RLENGTH - 1) + 0 : -1
            break
        }
    if (bar >= 100) print
}
