# parallel fifths and octaves between two columns of pairs of semitones, with the bar of the first of the two chords
BEGIN { FS = "\t"; bar = 0 }
/^=[0-9]/ { bar = substr($1, 2) + 0 }
/^[*!=]/ { next }
{
    for (low = 1; low < NF; low++) for (high = low + 1; high <= NF; high++) {
        if (split($low, l, " ") != 2 || split($high, h, " ") != 2 || $low $high ~ /r/ || l[1] == h[1] || l[1] == l[2] || h[1] == h[2]) continue
        size = (h[1] - l[1] + 120) % 12
        if (size == (h[2] - l[2] + 120) % 12 && (size == 7 || size == 0)) print bar, "columns", low, high, size ? "fifths" : "octaves"
    }
}
