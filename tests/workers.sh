#!/usr/bin/env bash
# Runs the program over several pairs with strips from 1 to 64 and workers from 1 to 16, drawn at random:
# a third of the runs as they come, a third on one processor alone (taskset), and a third while other
# processes take every processor twice. Each run has to end within a minute with the status 0 and write
# what one strip and one worker write, byte for byte. The draw begins with the variable SEED (1 without
# it), and RUNS says how many runs there are (360). The program is the one that the variable SGM names
# (./sgm of this repository without it).
#
#     tests/workers.sh
set -u
# shellcheck source-path=SCRIPTDIR source=common.sh
. "$(dirname "$0")/common.sh"
runs=${RUNS:-360} patience=60 failed=0 load=()
has taskset || skip taskset util-linux
need_program
RANDOM=${SEED:-1}

# pair NAME WIDTH HEIGHT: two PGM files of noise, the right one moved by bands.
pair() {
    python3 - "$work/$1" "$2" "$3" <<'END'
import random, sys
name, width, height = sys.argv[1], int(sys.argv[2]), int(sys.argv[3])
draw, rows = random.Random(width * 4096 + height), ([], [])
for y in range(height):
    texture = draw.randbytes(width + 40)
    shift = 4 + 4 * (8 * y // height)
    rows[0].append(texture[40 - shift :][:width])
    rows[1].append(texture[40:])
for side, lines in zip("lr", rows):
    with open(f"{name}-{side}.pgm", "wb") as file:
        file.write(b"P5\n%d %d\n255\n" % (width, height) + b"".join(lines))
END
}

# match PAIR OUT [WORD..]: a run over a pair; prints its summary.
match() {
    timeout "$patience" "${before[@]}" "$SGM" match "$1-l.pgm" "$1-r.pgm" "$calibration" "$2" "${@:3}" 2>&1
}

burden() {
    local processor
    for ((processor = 0; processor < 2 * $(nproc); processor++)); do
        while :; do :; done &
        load+=($!)
    done
}

relieve() {
    [ ${#load[@]} = 0 ] && return
    kill "${load[@]}"
    wait "${load[@]}" 2>/dev/null
    load=()
}

cd "$work" || exit 1
trap 'relieve; cd /; rm -rf "$work"' EXIT
calibration=$work/c.json
# The worked example's, with more disparities and a larger window.
sed 's/"count":2/"count":32/; s/"width":3,"height":3/"width":9,"height":7/' "$top/crates/sgm_cli/data/c.json" >c.json
pairs=(small middle wide high)
before=()
for size in "small 5 3" "middle 160 120" "wide 317 41" "high 29 211"; do
    # shellcheck disable=SC2086
    pair $size
    one=${size%% *}
    match "$one" "$one-wanted" >"$one-wanted.txt" || { echo "workers: $one ends with $?" >&2; exit 1; }
done

# The runs under load come last, so that the load is there once.
for ((run = 0; run < runs; run++)); do
    case $((3 * run / runs)) in
    0) before=() how="as it comes" ;;
    1) before=(taskset -c "$((RANDOM % $(nproc)))") how="on one processor" ;;
    2)
        before=() how="under load"
        [ ${#load[@]} = 0 ] && burden
        ;;
    esac
    one=${pairs[RANDOM % 4]}
    words=("strips=$((1 + RANDOM % 64))" "workers=$((1 + RANDOM % 16))")
    match "$one" made "${words[@]}" >made.txt
    status=$?
    for end in .pgm .asc .csv .txt; do
        cmp -s "made$end" "$one-wanted$end" || status="$status, and $end differs"
    done
    if [ "$status" != 0 ]; then
        echo "workers: $one ${words[*]} $how: status $status"
        failed=$((failed + 1))
    fi
    rm -f made.*
done
echo "workers: $((runs - failed)) runs alike, $failed not"
[ "$failed" = 0 ]
