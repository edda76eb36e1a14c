#!/usr/bin/env bash
# Merges the grids of a series into one, as a Slurm job that waits for the series' tasks (series_array.sh).
#
#     sbatch --dependency=afterok:JOB --kill-on-invalid-dep=yes tools/series_merge.sh LIST CALIB OUT
#
# For example, JOB being what `sbatch --parsable --array=1-8 tools/series_array.sh /data/survey/list 8` prints:
#
#     sbatch --dependency=afterok:$JOB tools/series_merge.sh /data/survey/list /data/survey/site.json /data/survey/site
#
# LIST is that of the series, CALIB the calibration of the site, over whose grid all are put, and OUT the first letters of
# what `sgm merge` writes. It merges nothing where an entry is left (series_left.py --grids), and then ends with 3; where
# LIST is refused it ends with 1, and else with the status of `sgm merge`. `afterok` begins it only where all tasks ended
# with 0, so a series of which an entry was refused isn't merged either: take that line out of LIST first.
#
# The programs are ./sgm and tools/series_left.py of the folder where sbatch was called, else sgm and sgm-series-left of
# the PATH, or what the variables SGM and SERIES_LEFT say. Memory is that of the longest grid's text and of CALIB's grid.

#SBATCH --job-name=sgm_merge
#SBATCH --requeue
#SBATCH --open-mode=append
set -u

wrong() {
    echo "series_merge: $1; --help says more" >&2
    exit 2
}

case ${1-} in
-h | --help)
    sed -n '2,/^$/ s/^# \{0,1\}//p' "$0"
    exit 0
    ;;
-*) wrong "unknown option $1" ;;
esac
[ $# = 3 ] || wrong "it takes LIST, CALIB and OUT"

# program FILE NAME: the file, where it is in the folder at hand, else what the PATH has under the name.
program() { if [ -x "$1" ]; then echo "$1"; else echo "$2"; fi; }
sgm=${SGM:-$(program ./sgm sgm)}
left=${SERIES_LEFT:-$(program tools/series_left.py sgm-series-left)}

grids=$(mktemp "${TMPDIR:-/tmp}/sgm-grids.XXXXXX") || exit 1
trap 'rm -f "$grids"' EXIT
"$left" "$1" --grids >"$grids" || exit
"$sgm" merge "$grids" "$2" "$3"
