# how long each syllable is held, in quarters: a column that has numbers where the voice sounds, and the words, on a grid of STEP
BEGIN { FS = "\t" }
function tell() { if (syllable != "") print held / step * 4, syllable }
/^[*!=]/ { next }
$2 != "." { tell(); syllable = $2; held = 0 }
$1 ~ /[0-9]/ { held++ }
END { tell() }
