#!/usr/bin/env bash
# Runs the program and the reference on small pairs with many calibrations, on certificates of their pixels, on
# the change between two grids, on merges, on bad input and on the example with the heap, each in a folder of its own,
# and compares every byte: the files made, both streams and the status. Where a match names no strips and workers, the
# program also runs with some numbers of them, which may change nothing. The reference's files for the heap are also
# compared with those that the example holds. The program is the one that the variable SGM names (./sgm of this
# repository without it). Takes minutes.
#
#     tests/compare.sh
set -u
# shellcheck source-path=SCRIPTDIR source=common.sh
. "$(dirname "$0")/common.sh"
need_program
# Strips and workers: one of each, strips of unequal heights, more strips than workers, the most of both.
splits=("strips=1 workers=1" "strips=2 workers=3" "strips=7 workers=2" "strips=64 workers=16")
passed=0 failed=0

# run FOLDER PROGRAM [WORD..]: runs the program on the case there, with more words. Its output, its errors and
# its status become files too.
run() {
    local folder=$1 program=$2 words
    shift 2
    mapfile -t words <"$folder/words"
    (cd "$folder" && "$program" "${words[@]}" "$@" >stdout 2>stderr)
    echo $? >"$folder/status"
}

# same CASE WHAT: whether the program's folder and the reference's hold the same.
same() {
    if diff -r "$work/program/$1" "$work/reference/$1" >"$work/differences"; then
        passed=$((passed + 1))
    else
        failed=$((failed + 1))
        echo "compare: differs: $1$2"
        cat "$work/differences"
    fi
}

# split_up CASE: compares a match with the answer that the reference has given, for some strips and workers.
split_up() {
    local split words
    if [ "$(head -n 1 "$work/cases/$1/words")" != match ] || grep -q '^strips=\|^workers=' "$work/cases/$1/words"; then
        return
    fi
    for split in "${splits[@]}"; do
        rm -r "$work/program/$1" && cp -r "$work/cases/$1" "$work/program/$1" || exit 1
        read -ra words <<<"$split"
        run "$work/program/$1" "$SGM" "${words[@]}"
        same "$1" " with $split"
    done
}

python3 "$here/make_cases.py" "$work/cases" || exit 1
cp -r "$work/cases" "$work/program" && cp -r "$work/cases" "$work/reference" || exit 1
for folder in "$work"/cases/*/; do
    case=$(basename "$folder")
    run "$work/program/$case" "$SGM"
    run "$work/reference/$case" "$here/reference.py"
    same "$case" ""
    split_up "$case"
done
for ending in pgm asc csv; do
    cmp "$work/reference/heap/out.$ending" "$top/examples/stockpile/expected/out.$ending" || failed=$((failed + 1))
done
echo "compare: $passed the same, $failed different"
[ "$failed" = 0 ]
