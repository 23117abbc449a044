# the phrases of a voice in intervals, on a grid of STEP: each begins with a note in brackets
function tell() { if (time) print notes " notes, " time / step * 4 " quarters" }
/^[*!=]/ { next }
/^\[/ { tell(); notes = time = 0; begun = 1 }
begun { time++ }
/^[-+P[]/ { notes++ }
END { tell() }
