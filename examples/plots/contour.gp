# four voices on a grid of eighths
#   gnuplot examples/plots/contour.gp > contour.svg
load 'examples/plots/style.gp'
set title 'The voices of the chorale'
set xlabel 'bar'
set grid xtics linecolor 'gray80' linetype 1
eval 'set ytics ' . pitches
set rmargin 10
set offsets 0, 0, 1, 2

# Of one voice: the moment in eighths, and the note that sounds. A null token is the note before it. `last` gives the end of the line.
voice(field) = sprintf("< sed 's/$/ | extract -f %d/' examples/contour.hpl | ./humpipe /dev/stdin | \
    awk '/^[-0-9.r]/ { if ($1 != \".\") note = $1; print moment++, (note == \"r\" ? \"NaN\" : note) } END { print moment, note }'", field)
last(field) = voice(field) . ' | tail -n 1'
# The barlines: the moment, and the number.
bars = "< ./humpipe examples/contour.hpl | awk '/^=[0-9]/ { print moment + 0, substr($1, 2) } /^[-0-9.r]/ { moment++ }'"

set xtics ()
plot bars using 1:(NaN):xtic(2) notitle, \
    voice(4) with steps linecolor rgb orange linewidth 3, last(4) using 1:2:('soprano') with labels left offset 0.7,0 textcolor rgb orange, \
    voice(3) with steps linecolor rgb light linewidth 3, last(3) using 1:2:('alto') with labels left offset 0.7,0 textcolor rgb black, \
    voice(2) with steps linecolor rgb blue linewidth 2 dashtype (6, 4), last(2) using 1:2:('tenor') with labels left offset 0.7,0 textcolor rgb blue, \
    voice(1) with steps linecolor rgb black linewidth 2, last(1) using 1:2:('bass') with labels left offset 0.7,0 textcolor rgb black
