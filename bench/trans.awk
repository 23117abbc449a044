# trans -d 1 -c 2 in awk: the columns as they stand, all of them under **kern; no spine is followed and nothing is refused
BEGIN { FS = OFS = "\t"; split("0 2 4 5 7 9 11", naturals, " ") }
/^!/ { print; next }
/^\*\*/ { print; gsub(/\*\*kern/, "*Trd1c2"); print; next }
/^\*/ { print; next }
{ for (i = 1; i <= NF; i++) if ($i != "." && $i !~ /^=/) $i = moved($i); print }
function moved(token,   n, parts, k, out) {
  n = split(token, parts, " ")
  out = moved_note(parts[1])
  for (k = 2; k <= n; k++) out = out " " moved_note(parts[k])
  return out
}
function moved_note(note,   before, behind, pitch, letter, letters, at, octave, step, semitone, alteration) {
  if (!match(note, /[a-gA-G]+[#-]*n?/)) return note
  before = substr(note, 1, RSTART - 1); behind = substr(note, RSTART + RLENGTH); pitch = substr(note, RSTART, RLENGTH)
  letter = substr(pitch, 1, 1); match(pitch, "^" letter "+"); letters = RLENGTH
  at = index("cdefgab", letter); octave = letters - 1
  if (!at) { at = index("CDEFGAB", letter); octave = -letters }
  semitone = naturals[at] + 12 * octave + gsub(/#/, "", pitch) - gsub(/-/, "", pitch) + 2
  step = at - 1 + 7 * octave + 1
  octave = int((step + 70) / 7) - 10; at = step - 7 * octave + 1
  alteration = semitone - naturals[at] - 12 * octave
  letter = substr(octave < 0 ? "CDEFGAB" : "cdefgab", at, 1)
  return before repeated(letter, octave < 0 ? -octave : octave + 1) \
    (alteration > 0 ? repeated("#", alteration) : repeated("-", -alteration)) behind
}
function repeated(text, count,   out) { out = ""; while (count-- > 0) out = out text; return out }
