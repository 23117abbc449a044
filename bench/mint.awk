# mint in awk: from the note before in the same column, as the columns stand; no spine is followed and nothing is refused
BEGIN { FS = OFS = "\t"; split("0 2 4 5 7 9 11", naturals, " ") }
/^!/ { print; next }
/^\*/ { gsub(/\*\*kern/, "**mint"); print; next }
{ for (i = 1; i <= NF; i++) if ($i != "." && $i !~ /^=/) $i = told($i, i); print }
function told(token, column,   parts, note, letter, letters, at, octave, step, semitone, out) {
  split(token, parts, " ")
  if (!match(parts[1], /[a-gA-G]+[#-]*/)) return parts[1] ~ /r/ ? "r" : "."
  note = substr(parts[1], RSTART, RLENGTH); letter = substr(note, 1, 1)
  match(note, "^" letter "+"); letters = RLENGTH
  at = index("cdefgab", letter); octave = letters - 1
  if (!at) { at = index("CDEFGAB", letter); octave = -letters }
  step = at + 7 * octave
  out = "[" note "]"
  semitone = naturals[at] + 12 * octave + gsub(/#/, "", note) - gsub(/-/, "", note)
  if (column in steps) out = interval(step - steps[column], semitone - semitones[column])
  steps[column] = step; semitones[column] = semitone
  return out
}
function interval(d, s,   sign, perfect, excess, quality) {
  sign = d > 0 || d == 0 && s > 0 ? "+" : d < 0 || s < 0 ? "-" : ""
  if (sign == "-") { d = -d; s = -s }
  perfect = d % 7 == 0 || d % 7 == 3 || d % 7 == 4
  excess = s - naturals[d % 7 + 1] - 12 * int(d / 7)
  if (excess > 0) quality = repeated("A", excess)
  else if (excess == 0) quality = perfect ? "P" : "M"
  else quality = !perfect && excess == -1 ? "m" : repeated("d", perfect ? -excess : -excess - 1)
  return sign quality (d + 1)
}
function repeated(text, count,   out) { out = ""; while (count-- > 0) out = out text; return out }
