# the pitch classes of each record of semitones, 0 for c to 11 for b
/^[*!=]/ { next }
{
    for (k in has) delete has[k]
    chord = ""
    for (k = 1; k <= NF; k++) if ($k ~ /[0-9]/) has[($k + 120) % 12]
    for (c = 0; c < 12; c++) if (c in has) chord = chord " " c
    if (chord != "") print chord
}
