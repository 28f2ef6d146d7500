#!/bin/sh
#SBATCH --job-name=monk-fit
#SBATCH --output=fit.%a.out
# Judges the logs that a list names, one in each line, as an array job of Slurm. What follows the list are options of
# `fit`:
#
#     sbatch --array=0-15 fit.sbatch list.txt --means 0=1
#
# Each task takes its share of the lines: of 16 tasks every sixteenth. What it finds goes to fit.TASK.out, and it ends
# with 0 only if each of its files fits. MONK names the program; without it `monk` has to be in PATH.
set -eu
list=$1
shift
awk -v task="$SLURM_ARRAY_TASK_ID" -v tasks="$SLURM_ARRAY_TASK_COUNT" '(NR - 1) % tasks == task % tasks' "$list" |
    xargs -r -d '\n' "${MONK:-monk}" fit "$@"
