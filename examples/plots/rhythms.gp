# the durations that the right hand of the study plays, from the longest to the shortest
#   gnuplot examples/plots/rhythms.gp > rhythms.svg
load 'examples/plots/style.gp'
set title 'Rhythms of the right hand'
set border 1
unset ytics
set xtics scale 0
set yrange [0:*]
set offsets 0, 0, graph 0.1, 0
set boxwidth 0.8
# (r is a rest, 12 a third of a quarter)
counts = "< ./humpipe examples/rhythm.hpl | grep -v '^[*=]' | tr '\t ' '\n\n' | grep '[0-9]' | sort -n | uniq -c"
named(text) = text eq '2' ? 'half' : text eq '4' ? 'quarter' : text eq '8' ? 'eighth' : text eq '8r' ? 'eighth rest' : text eq '12' ? 'triplet' : text
plot counts using 0:1:xtic(named(strcol(2))) with boxes linecolor rgb blue, '' using 0:1:1 with labels offset 0,0.7
