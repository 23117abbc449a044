# semits in awk: the columns as they stand, all of them under **kern; no spine is followed and nothing is refused
BEGIN { FS = OFS = "\t"; split("0 2 4 5 7 9 11", naturals, " ") }
/^!/ { print; next }
/^\*/ { gsub(/\*\*kern/, "**semits"); print; next }
{ for (i = 1; i <= NF; i++) if ($i != "." && $i !~ /^=/) $i = semits($i); print }
function semits(token,   n, parts, k, found, number, out, letters) {
  n = split(token, parts, " "); out = ""
  for (k = 1; k <= n; k++) {
    if (parts[k] ~ /r/) { out = out " r"; continue }
    if (!match(parts[k], /[a-gA-G]/)) continue
    found = substr(parts[k], RSTART); letter = substr(found, 1, 1)
    match(found, "^" letter "+"); letters = RLENGTH
    at = index("cdefgab", letter)
    if (at) number = naturals[at] + 12 * (letters - 1); else number = naturals[index("CDEFGAB", letter)] - 12 * letters
    found = substr(found, letters + 1)
    if (match(found, /^#+/)) number += RLENGTH; else if (match(found, /^-+/)) number -= RLENGTH
    out = out " " number
  }
  return out == "" ? "." : substr(out, 2)
}
