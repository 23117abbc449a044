#!/bin/sh
# corpus.sh PROGRAM [ROOM]: measures what docs/CORPORA.md tells, in a folder ROOM (bench/data if nothing is said): semits over 10,000 small scores by
# `python3 -m humpipe corpus`, beside the same with bench/semits.awk for the program, and over an archive of 100,000 scores and 1 GB. Each the least of
# three runs, in seconds.
set -eu
top=$(cd "$(dirname "$0")/.." && pwd)
program=$(realpath "$1")
room=${2:-$top/bench/data}
mkdir -p "$room"
cd "$room"
export PYTHONPATH="$top/python"
[ -d small ] || python3 "$top/bench/make_corpus.py" 10000 small
if [ ! -d archive ]; then
    python3 "$top/bench/make_corpus.py" 1000 part 180
    mkdir archive
    for k in $(seq 0 99); do cp -r part "archive/$k"; done
fi
echo 'out: read /dev/stdin | semits -x' >semits.hpl
# mawk as a program that takes any plan
printf '#!/bin/sh\nexec mawk -f %s\n' "'$top/bench/semits.awk'" >mawk
chmod +x mawk

# The least time of three runs, as `least WHAT PROGRAM SCORES JOBS`.
least() {
    for _ in 1 2 3; do
        rm -rf results
        begin=$(date +%s%N)
        HUMPIPE=$2 python3 -m humpipe corpus semits.hpl "$3" --into results --jobs "$4" >told || true
        echo "$((($(date +%s%N) - begin) / 10000000))"
    done | sort -n | head -n 1 | awk -v what="$1" '{ printf "%s: %.2f s\n", what, $1 / 100 }'
    cat told
}

echo "load: $(cut -d' ' -f1 /proc/loadavg)"
for jobs in 1 4; do
    least "humpipe, 10,000 scores, $jobs at a time" "$program" small $jobs
    least "mawk, 10,000 scores, $jobs at a time" "$room/mawk" small $jobs
done
least 'humpipe, 100,000 scores of 1 GB, 4 at a time' "$program" archive 4
echo "load: $(cut -d' ' -f1 /proc/loadavg)"
