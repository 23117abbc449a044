#!/bin/sh
# corpus.sbatch PLAN SCORES RESULTS: a job array of Slurm that runs a plan over a folder of scores, each task a part of it:
#
#   sbatch --array=1-16 examples/corpus.sbatch semits.hpl scores results
#
# Any size of the array does for any number of scores. A refused score doesn't make its task fail: it stands in RESULTS/faults.tsv. A score that
# couldn't be run does. The same line again runs what is missing.
#SBATCH --job-name=humpipe
#SBATCH --time=01:00:00
#SBATCH --mem=1G
#SBATCH --cpus-per-task=4
#SBATCH --output=humpipe-%A-%a.out
set -eu
[ $# -eq 3 ] || { echo 'usage: corpus.sbatch PLAN SCORES RESULTS' >&2; exit 2; }
plan=$(realpath -- "$1") scores=$(realpath -- "$2") results=$(realpath -m -- "$3")
first=${SLURM_ARRAY_TASK_MIN:-1} step=${SLURM_ARRAY_TASK_STEP:-1}
part=$(((${SLURM_ARRAY_TASK_ID:-1} - first) / step + 1))/${SLURM_ARRAY_TASK_COUNT:-1}
python3 -m humpipe corpus "$plan" "$scores" --into "$results" --part "$part" --jobs "${SLURM_CPUS_PER_TASK:-1}" || [ $? -eq 1 ]
