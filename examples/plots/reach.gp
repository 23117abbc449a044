# how far each hand reaches in each bar of the study, from its lowest to its highest note
#   gnuplot examples/plots/reach.gp > reach.svg
load 'examples/plots/style.gp'
set title 'The reach of each hand, bar by bar'
set xlabel 'bar'
set xtics 1
set autoscale xfix
set offsets graph 0.02, graph 0.02, 2, 2
eval 'set ytics ' . pitches
set grid ytics linecolor 'gray80' linetype 1
set rmargin 12

# For each bar of a hand its number, and the lowest and the highest note.
reach(hand) = sprintf("< sed 's/$/ | extract -f %d/' examples/compass.hpl | ./humpipe /dev/stdin | awk ' \
    function tell() { if (low != \"\") print bar, low, high; low = high = \"\" } \
    /^=[0-9]/ { tell(); bar = substr($1, 2) + 0 } \
    /^[*!=]/ { next } \
    { for (k = 1; k <= NF; k++) if ($k ~ /[0-9]/) { \
        if (low == \"\" || $k + 0 < low) low = $k + 0; if (high == \"\" || $k + 0 > high) high = $k + 0 } } \
    END { tell() }'", hand)
last(hand) = reach(hand) . ' | tail -n 1'

plot reach(2) using 1:2:($1 - 0.3):($1 + 0.3):($2 - 0.3):($3 + 0.3) with boxxyerror linecolor rgb light, \
    last(2) using ($1 + 0.4):2:('right hand') with labels left textcolor rgb black, \
    reach(1) using 1:2:($1 - 0.3):($1 + 0.3):($2 - 0.3):($3 + 0.3) with boxxyerror linecolor rgb blue, \
    last(1) using ($1 + 0.4):2:('left hand') with labels left textcolor rgb blue
