#!/usr/bin/env bash
# Runs the worked example with three strips and two workers, a certificate of one of its pixels, the change between
# its grid and another, and the merge of both; then the same of the worked pair of version 3 with everything on, but for
# the change. Each is refused memory: the first allocation in the first run, the second one in the second, and so on,
# until a run takes none of that number. All workers count together, so a number may fall to any of them.
# Each run has to end Done, with the files and the summary whole; or out of memory, with its line and status, nothing
# on standard output, and each file as it was, but for outputs up to one: those before that one whole, and that one the
# beginning of its text. All is tried twice, over a folder without outputs and over one with older ones.
#
# Then all allocations above a megabyte are refused. Each of these runs is done all the same, as none of them has so much
# to keep; and a grid whose head asks for 4096 x 4096 heights, of which none follows, is refused for that, and not for
# want of the memory that they would take. What an undisturbed run writes is that of the separate implementation
# (reference.py).
#
# The program is the one that the variable SGM names (./sgm of this repository without it); gcc builds the library that
# refuses, which takes the place of the C library's calls.
#
#     tests/refused_allocations.sh
set -u
# shellcheck source-path=SCRIPTDIR source=common.sh
. "$(dirname "$0")/common.sh"
has gcc || skip gcc gcc
need_built
most=100000 failed=0 line='sgm: no memory'
inputs=(l.pgm r.pgm c.json e.asc l.asc m.txt)

# of COMMAND: sets the words of a run, the folder with its inputs, the summary and the outputs. Where no summary stands
# here, it is that of the reference.
of() {
    given=$work/plain outputs=(o.pgm o.asc o.csv) summary=
    case $1 in
    third*) given=$work/third ;;
    esac
    case $1 in
    third)
        words=(match l.pgm r.pgm c.json o strips=3 workers=2 peak=2 fill=1)
        ;;
    third-trace)
        words=(trace l.pgm r.pgm c.json right 4 1 1) outputs=()
        ;;
    third-merge)
        words=(merge m.txt c.json o) outputs=(o.asc o.csv)
        ;;
    match)
        words=(match l.pgm r.pgm c.json o strips=3 workers=2) summary='valid 15 of 15'
        ;;
    trace)
        words=(trace l.pgm r.pgm c.json right 2 1 1) summary=$'least 15\n0 1 0 8 0\n1 1 0 6 0\n2 1 1 0 1'
        outputs=()
        ;;
    change)
        words=(change e.asc l.asc o) summary='compared 9 of 12'
        outputs=(o.asc o.csv)
        ;;
    merge)
        words=(merge m.txt c.json o) summary='merged 9 of 12'
        outputs=(o.asc o.csv)
        ;;
    esac
}

cat >"$work/refuse.c" <<'C'
#include <errno.h>
#include <fcntl.h>
#include <stdatomic.h>
#include <stddef.h>
#include <stdlib.h>
#include <unistd.h>

extern void *__libc_malloc(size_t);
extern void *__libc_calloc(size_t, size_t);
extern void *__libc_realloc(void *, size_t);
extern void *__libc_memalign(size_t, size_t);

static atomic_ulong calls;
static unsigned long refused;
static size_t most = -1;
static const char *mark;

/* What the loader takes before the program stands isn't counted. */
__attribute__((constructor)) static void begin(void) {
    const char *number = getenv("REFUSED_ALLOCATION"), *bytes = getenv("LARGEST_ALLOCATION");
    mark = getenv("REFUSED_MARK");
    refused = number ? strtoul(number, NULL, 10) : 0;
    if (bytes)
        most = strtoul(bytes, NULL, 10);
}

/* Whether this allocation is too large, or the one to refuse; then the file of the mark is made. */
static int refuses(size_t size) {
    if (size <= most && (refused == 0 || atomic_fetch_add(&calls, 1) + 1 != refused))
        return 0;
    if (mark)
        close(open(mark, O_WRONLY | O_CREAT, 0600));
    errno = ENOMEM;
    return 1;
}

void *malloc(size_t size) { return refuses(size) ? NULL : __libc_malloc(size); }
void *calloc(size_t count, size_t size) {
    size_t bytes;
    if (__builtin_mul_overflow(count, size, &bytes))
        bytes = -1;
    return refuses(bytes) ? NULL : __libc_calloc(count, size);
}
void *realloc(void *old, size_t size) { return refuses(size) ? NULL : __libc_realloc(old, size); }
void *memalign(size_t unit, size_t size) { return refuses(size) ? NULL : __libc_memalign(unit, size); }
void *aligned_alloc(size_t unit, size_t size) { return memalign(unit, size); }
int posix_memalign(void **into, size_t unit, size_t size) {
    void *block = memalign(unit, size);
    if (!block)
        return ENOMEM;
    *into = block;
    return 0;
}
C
gcc -O2 -shared -fPIC -o "$work/refuse.so" "$work/refuse.c" || exit 1

# The example's grid, and a later one in which the ground rose.
mkdir "$work/plain" && cp "$top"/crates/sgm_cli/data/{l.pgm,r.pgm,c.json} "$work/plain" || exit 1
{
    printf '%s\n' 'ncols 4' 'nrows 3' 'xllcorner 2000' 'yllcorner -2000' 'cellsize 1000' 'NODATA_value -2147483648'
    for _ in 1 2 3; do echo 50000 50000 50000 -2147483648; done
} >"$work/plain/e.asc"
sed 's/50000/51000/' "$work/plain/e.asc" >"$work/plain/l.asc"
printf 'e.asc\nl.asc\n' >"$work/plain/m.txt"
write_third "$work/third" || exit 1

# begin FOLDER [TEXT]: a folder with the inputs, and outputs of that text.
begin() {
    rm -rf "$1" && cp -r "$given" "$1" || exit 1
    [ $# = 1 ] || for file in "${outputs[@]}"; do echo "$2" >"$1/$file"; done
}

# is_beginning FILE WHOLE: whether the file holds the beginning of the whole one, perhaps all of it.
is_beginning() { [ -f "$1" ] && [ "$(stat -c %s "$1")" -le "$(stat -c %s "$2")" ] && cmp -s -n "$(stat -c %s "$1")" "$1" "$2"; }

# same ONE OTHER: whether both files are the same, or neither is there.
same() { if [ -e "$1" ]; then cmp -s "$1" "$2"; else [ ! -e "$2" ]; fi; }

# stopped: whether the files in made are those of a run that stopped at some output, or before all.
stopped() {
    local at=0 count=${#outputs[@]}
    while [ $at -lt "$count" ] && cmp -s "made/${outputs[at]}" "whole/${outputs[at]}" && ! same "made/${outputs[at]}" "before/${outputs[at]}"; do
        at=$((at + 1))
    done
    [ $at = "$count" ] && return
    same "made/${outputs[at]}" "before/${outputs[at]}" || is_beginning "made/${outputs[at]}" "whole/${outputs[at]}" || return
    while at=$((at + 1)) && [ $at -lt "$count" ]; do same "made/${outputs[at]}" "before/${outputs[at]}" || return; done
}

is_done() { [ "$status" = 0 ] && diff -r whole made >/dev/null && [ "$(cat out)" = "$summary" ] && [ ! -s err ]; }

# run [VARIABLE=VALUE]: the run in made, whose memory is refused as the variable says, if one is given. Sets status.
run() {
    (cd made && env ${1:+LD_PRELOAD="$work/refuse.so"} ${1:+"$1"} REFUSED_MARK="$work/mark" \
        "$program" "${words[@]}" >"$work/out" 2>"$work/err" </dev/null)
    status=$?
}

wrong() {
    failed=$((failed + 1))
    echo "refused_allocations: $command, allocation $number, $what: $1"
    cp -r made "$work/out" "$work/err" "$(mktemp -d "${TMPDIR:-/tmp}/sgm-refused_allocations.$number.XXXXXX")"
}

# refuse_each WHAT: refuses the words each allocation in turn, over older outputs where WHAT says so. Counts the
# allocations in taken, and the runs in with and without.
refuse_each() {
    local what=$1 file
    for ((number = 1; number <= most; number++)); do
        rm -rf before mark
        if [ "$what" = "older outputs" ]; then begin made older; else begin made; fi
        cp -r made before
        run REFUSED_ALLOCATION="$number"
        [ -e mark ] || break
        case $status in
        0)
            with=$((with + 1))
            is_done || wrong "done, and not whole"
            ;;
        6)
            without=$((without + 1))
            printf '%s\n' "$line" | cmp -s - err || wrong "standard error has '$(cat err)'"
            [ ! -s out ] || wrong "standard output has '$(cat out)'"
            for file in "${inputs[@]}"; do same "made/$file" "before/$file" || wrong "$file changed"; done
            [ -z "$(comm -13 <(ls whole) <(ls made))" ] || wrong "another file came"
            stopped || wrong "the outputs are neither as before nor those of a run that stopped"
            ;;
        *) wrong "status $status, '$(cat err)'" ;;
        esac
    done
    # A run that takes none of the number is as any other.
    is_done || wrong "none was refused, and it isn't done"
    [ "$number" -gt 1 ] || wrong "no allocation was refused"
    taken+=("$((number - 1))")
}

# refuse_large: the words with no allocation above a megabyte. Counts the runs in small.
refuse_large() {
    number=0 what="none above a megabyte"
    rm -rf mark
    begin made
    run LARGEST_ALLOCATION=1048576
    is_done || wrong "status $status, '$(cat err)'"
    [ ! -e mark ] || wrong "so much is asked for"
    small=$((small + 1))
}

# refuse_head: the same of a grid that has a head for 4096 x 4096 heights and none of these.
refuse_head() {
    command=change
    of change
    number=0 what="a head without heights"
    rm -rf mark
    begin made
    sed -e 's/ncols 4/ncols 4096/' -e 's/nrows 3/nrows 4096/' -e 6q "$given/e.asc" >made/e.asc
    run LARGEST_ALLOCATION=1048576
    [ "$status $(cat err)" = '3 sgm: earlier: 0 heights, 16777216 needed' ] || wrong "status $status, '$(cat err)'"
    [ ! -e mark ] || wrong "its room is asked for"
    small=$((small + 1))
}

cd "$work" || exit 1
without=0 with=0 small=0 told=
commands=(match trace change)
commands+=(third third-trace)
if has_merge; then commands+=(merge third-merge); fi
for command in "${commands[@]}"; do
    of "$command"
    begin whole
    (cd whole && "$here/reference.py" "${words[@]}" >"$work/out") || exit 1
    [ -n "$summary" ] || summary=$(cat out)
    begin made && run
    for file in "${outputs[@]}"; do [ -s "whole/$file" ] || status="$status, without $file"; done
    if ! is_done; then
        echo "refused_allocations: $command ends with $status, or not as the reference does: $(cat err)" >&2
        exit 1
    fi
    taken=()
    refuse_each "no older outputs"
    [ ${#outputs[@]} = 0 ] || refuse_each "older outputs"
    refuse_large
    told+="${told:+, }$command ${taken[*]}"
done
refuse_head
echo "refused_allocations: allocations of $told, each refused in a run of its own: $with runs done, $without out of memory;" \
    "$small runs without large ones; $failed wrong"
[ "$failed" = 0 ]
