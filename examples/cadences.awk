# what sounds a BEAT before each fermata, and under it: the columns of a score on a grid of STEP, and again with what is sustained in parentheses
BEGIN { FS = "\t"; ahead = step / beat; bar = 0 }
/^=[0-9]/ { bar = substr($1, 2) + 0 }
/^[*!=]/ { next }
{
    chord = $1; is_struck = 0
    for (k = 1; k <= NF / 2; k++) {
        if (k > 1) chord = chord "\t" $k
        if ($k ~ /;/ && $k == $(k + NF / 2)) is_struck = 1
    }
    before = chords[count % ahead]
    chords[count++ % ahead] = chord
    if (is_struck) { print "bar " bar; if (before != "") print before; print chord }
}
