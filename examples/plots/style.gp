# what the plots share: SVG on standard output, in colours that colour-blind readers tell apart and that print as different greys
set terminal svg size 640,360 dynamic font 'sans-serif,14' background 'white'
blue = '#0072b2'
orange = '#d55e00'
light = '#e69f00'
black = '#000000'
set border 3 linecolor 'black'
set tics nomirror out
set style fill solid 1 noborder
set key off
# pitches for semitones above middle c
pitches = "('C2' -24, 'G2' -17, 'C3' -12, 'G3' -5, 'C4' 0, 'G4' 7, 'C5' 12, 'G5' 19, 'C6' 24)"
