# where two editions differ, by their third and fourth columns, the notes in semitones; it stops where their barlines don't fall together
function number(token) { return token ~ /^=[0-9]/ ? substr(token, 2) + 0 : "" }
BEGIN { FS = "\t" }
/^[*!]/ { next }
($3 ~ /^=/) != ($4 ~ /^=/) || $3 ~ /^=/ && number($3) != number($4) {
    print "after bar " bar " the barlines don't fall together" > "/dev/stderr"
    exit 1
}
/^=/ { if (number($3) != "") bar = number($3); next }
$3 != $4 { print bar, $1, $2 }
