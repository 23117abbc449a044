# a table with a head: the bar, and the columns of a score
BEGIN { FS = OFS = "\t"; bar = 0; print "bar", "kern", "semits", "mint", "recip" }
/^=[0-9]/ { bar = substr($1, 2) + 0 }
!/^[*!=]/ { print bar, $1, $2, $3, $4 }
