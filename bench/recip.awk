# recip in awk: the columns as they stand, all of them under **kern; no spine is followed and nothing is refused
BEGIN { FS = OFS = "\t" }
/^!/ { print; next }
/^\*/ { gsub(/\*\*kern/, "**recip"); print; next }
{ for (i = 1; i <= NF; i++) if ($i != "." && $i !~ /^=/) $i = durations($i); print }
function durations(token,   n, parts, k, rest, out) {
  n = split(token, parts, " "); out = ""
  for (k = 1; k <= n; k++) {
    if (parts[k] ~ /q/) continue
    rest = parts[k] ~ /r/ ? "r" : ""
    if (match(parts[k], /[0-9][0-9]*(%[0-9]+)?\.*/)) out = out " " substr(parts[k], RSTART, RLENGTH) rest
    else if (rest) out = out " r"
  }
  return out == "" ? "." : substr(out, 2)
}
