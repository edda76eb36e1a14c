#!/usr/bin/env bash
# Matches a part of a series, as a task of a Slurm array: what is left of it, by sgm_series with two workers.
#
#     sbatch --array=1-PARTS tools/series_array.sh LIST PARTS
#
# For example: sbatch --array=1-8 tools/series_array.sh /data/survey/list 8
#
# Task K takes the entries of LIST from number K - 1 on, from 0, and each PARTS-th one after it, but for those whose
# outputs are whole already (series_left.py). So a task that Slurm begins again goes on, the same command again makes what
# is still left, and --array=3,5 with the same PARTS does so for two of the parts. It ends with the status of sgm_series,
# or with 1 where LIST is refused, so Slurm calls a task FAILED where an entry was refused. Summaries and lines go to
# slurm-JOB_TASK.out in the folder where sbatch was called, from which names are looked for too.
#
# The programs are ./sgm_series and tools/series_left.py of that folder, else sgm_series and sgm-series-left of the PATH,
# or what the variables SGM_SERIES and SERIES_LEFT say. Options of sbatch may stand before the script's name, as --mem=2G:
# by reckoning a task takes less than 7 GB with the versions 1 and 2 of the calibration (docs/MANY.md says how much
# yours take).

#SBATCH --job-name=sgm_series
#SBATCH --cpus-per-task=2
#SBATCH --requeue
#SBATCH --open-mode=append
set -u

wrong() {
    echo "series_array: $1; --help says more" >&2
    exit 2
}

case ${1-} in
-h | --help)
    sed -n '2,/^$/ s/^# \{0,1\}//p' "$0"
    exit 0
    ;;
-*) wrong "unknown option $1" ;;
esac
[ $# = 2 ] || wrong "it takes LIST and PARTS"
[ -n "${SLURM_ARRAY_TASK_ID-}" ] || wrong "no task of a Slurm array: sbatch --array=1-$2 $0 $1 $2"

# program FILE NAME: the file, where it is in the folder at hand, else what the PATH has under the name.
program() { if [ -x "$1" ]; then echo "$1"; else echo "$2"; fi; }
series=${SGM_SERIES:-$(program ./sgm_series sgm_series)}
left=${SERIES_LEFT:-$(program tools/series_left.py sgm-series-left)}

part=$(mktemp "${TMPDIR:-/tmp}/sgm-series.XXXXXX") || exit 1
trap 'rm -f "$part"' EXIT
"$left" "$1" --part "$SLURM_ARRAY_TASK_ID/$2" >"$part" || exit
"$series" "$part" workers=2
