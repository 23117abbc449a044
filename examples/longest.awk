# how long each pitch class sounds, in percent: records of semitones that last the same
BEGIN { split("c c# d e- e f f# g a- a b- b", name, " ") }
/^[*!=]/ { next }
{ for (k = 1; k <= NF; k++) if ($k ~ /[0-9]/) { time[name[($k + 120) % 12 + 1]]++; all++ } }
END { for (class in time) printf "%4.1f%% %s\n", 100 * time[class] / all, class }
