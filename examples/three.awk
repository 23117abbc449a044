# the lines of three durations; those with a chord have more words, and are left out
NF == 3 { print; next }
NF > 3 { chords++ }
END { if (chords) print chords " with chords are left out" > "/dev/stderr" }
