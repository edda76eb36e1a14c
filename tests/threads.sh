#!/usr/bin/env bash
# Counts the threads that a run starts, with one worker and with several: as many as are asked for have to work on each
# of the parts that are shared among them. A part that one thread did alone would give the same files, so that nothing
# but the count tells.
#
# Each image is rectified by all workers, two at least, and then both are coded by as many. Costs, fronts and selection
# are shared among all workers. The caller's thread is among them, so each of these takes one thread less than there are
# workers; so do finer disparities, their means, and the points of a grid. `demo` and a `match` with all of these are
# tried, with one, two, four and eight workers, so that each has as many strips and rows.
#
# The program is the one that the variable SGM names (./sgm of this repository without it); gcc builds the library that
# counts, which takes the place of the C library's call.
#
#     tests/threads.sh
set -u
# shellcheck source-path=SCRIPTDIR source=common.sh
. "$(dirname "$0")/common.sh"
has gcc || skip gcc gcc
need_built

cat >"$work/count.c" <<'C'
#define _GNU_SOURCE
#include <dlfcn.h>
#include <fcntl.h>
#include <pthread.h>
#include <stdlib.h>
#include <unistd.h>

typedef int create(pthread_t *, const pthread_attr_t *, void *(*)(void *), void *);

/* Adds a byte to the file of the variable for each thread that is made. */
int pthread_create(pthread_t *thread, const pthread_attr_t *how, void *(*start)(void *), void *with) {
    create *real = (create *)dlsym(RTLD_NEXT, "pthread_create");
    int status = real(thread, how, start, with);
    int file = open(getenv("THREADS_MADE"), O_WRONLY | O_CREAT | O_APPEND, 0600);
    if (status == 0 && write(file, ".", 1) != 1)
        abort();
    close(file);
    return status;
}
C
gcc -O2 -shared -fPIC -o "$work/count.so" "$work/count.c" -ldl || exit 1

pair=("$top"/examples/stockpile/{left,right}.pgm "$top/examples/stockpile/calibration_3.json")
cd "$work" || exit 1
failed=0 runs=0

# of PARTS WORKERS WORD..: a run of the words by so many workers, each of which but the caller's thread has to be made
# once for each of the parts, beside the threads for the images.
of() {
    local parts=$1 workers=$2 images made=0
    shift 2
    rm -f made
    THREADS_MADE="$work/made" LD_PRELOAD="$work/count.so" "$program" "$@" strips=16 workers="$workers" >out 2>err || {
        echo "threads: $* ends with $?: $(cat err)"
        exit 1
    }
    [ ! -e made ] || made=$(stat -c %s made)
    # Each image is rectified by two threads or by all workers, and then both are coded by as many.
    images=$((3 * ((workers > 2 ? workers : 2) - 1)))
    runs=$((runs + 1))
    if [ "$made" != $((images + parts * (workers - 1))) ]; then
        failed=$((failed + 1))
        echo "threads: $1 with $workers workers: $made made, $((images + parts * (workers - 1))) expected"
    fi
}

for workers in 1 2 4 8; do
    # Costs, fronts, selection.
    of 3 "$workers" demo 0
    # And finer values, their means, points of the grid.
    of 6 "$workers" match "${pair[@]}" out
done
echo "threads: $runs runs, $failed wrong"
[ "$failed" = 0 ]
