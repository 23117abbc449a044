# the melodic intervals of the soprano, from the largest down to the largest up
#   gnuplot examples/plots/intervals.gp > intervals.svg
load 'examples/plots/style.gp'
set title 'Melodic intervals of the soprano'
set border 1
unset ytics
set xtics scale 0
set yrange [0:*]
set offsets 0, 0, graph 0.1, 0
set boxwidth 0.8
# (sorted by direction, size, and quality)
counts = "< ./humpipe examples/soprano.hpl | grep -v '^[*!=]' | tr '\t' '\n' | grep '[0-9]' | sort | uniq -c | \
    awk '{ size = $2; gsub(/[^0-9]/, \"\", size); place = 10 * size + index(\"dmPMA\", substr($2, 2, 1)) } \
        { print ($2 ~ /^-/ ? -place : $2 ~ /^[+]/ ? place : 0), $1, $2 }' | sort -n"
plot counts using 0:2:xtic(3) with boxes linecolor rgb blue, '' using 0:2:2 with labels offset 0,0.7
