#!/usr/bin/env bash
# Tries the program's ends from the shell: each case has a folder of its own with a small pair, a
# calibration and one thing that is wrong, and asks for the status, the line on standard error, what
# is on standard output, and exactly the files that stand afterwards, each output whole. What the worked pair
# of version 3 with everything on has to write, the separate implementation (reference.py) writes. The system's
# own ends are among them: full disks (where small ones may be mounted), pipes that nobody reads, a file
# whose length changes while it is read, and less and less memory. The program is the one that the
# variable SGM names (./sgm of this repository without it).
#
#     tests/ends.sh
set -u
# shellcheck source-path=SCRIPTDIR source=common.sh
. "$(dirname "$0")/common.sh"
passed=0 failed=0 told=
outputs=(o.pgm o.asc o.csv)

# members NAME..: these members of the worked example's calibration, as JSON without its braces.
members() {
    python3 - "$top/crates/sgm_cli/data/c.json" "$@" <<'END'
import json, sys
with open(sys.argv[1], encoding="utf-8") as file:
    whole = json.load(file)
print(json.dumps({name: whole[name] for name in sys.argv[2:]})[1:-1])
END
}

# The parts of the calibration: what has to be there, and what asks for heights and volumes.
plain=$(members version disparities census penalties) || exit 1
camera=$(members camera) grid=$(members grid) regions=$(members regions)

# A case may have mounted a disk, and have left a process.
disks=() helper=
clean_up() {
    cd /
    [ -z "$helper" ] || kill "$helper" 2>/dev/null
    for disk in "${disks[@]}"; do umount "$disk"; done
    chmod -R u+rwX "$work"
    rm -rf "$work"
}
trap clean_up EXIT

# A new folder with the pair and its calibration; the words are those of a good run. Where the variable pages
# names a number, the folder is a disk of so many pages.
begin() {
    case=$1
    local folder=$work/${case//[^a-z0-9]/-}
    words=(match l.pgm r.pgm c.json o)
    mkdir "$folder" || exit 1
    if [ -n "${pages-}" ]; then
        mount -t tmpfs -o "size=$((pages * $(getconf PAGESIZE)))" none "$folder" || exit 1
        disks+=("$folder")
    fi
    cd "$folder" || exit 1
    printf 'P5\n5 3\n255\n\132\12\62\24\50\132\12\62\24\50\132\12\62\24\50' >l.pgm
    printf 'P5\n5 3\n255\n\12\62\24\50\36\12\62\24\50\36\12\62\24\50\36' >r.pgm
    echo "{$plain,$camera,$grid,$regions}" >c.json
}

# The same with the words of a certificate.
begin_trace() {
    begin "$1"
    words=(trace l.pgm r.pgm c.json right 2 1 1)
}

# The same with the words of the change between two grids, which stand beside the pair.
begin_change() {
    begin "$1"
    words=(change e.asc l.asc o)
    cp "$work/e.asc" "$work/l.asc" .
}

# The same with the words of a merge of these two grids.
begin_merge() {
    begin_change "$1"
    words=(merge m.txt c.json o)
    printf 'e.asc\nl.asc\n' >m.txt
}

# The same with the worked pair of version 3, everything on.
begin_third() {
    begin "$1"
    cp "$work"/third/* .
    words+=(strips=3 workers=2 peak=2 fill=1)
}

# The same with the words of a merge of two grids over its cells.
begin_third_merge() {
    begin_third "$1"
    words=(merge m.txt c.json o)
}

# ends STATUS LINE SUMMARY [OUTPUT..]: runs the words and compares. `-` as LINE or SUMMARY asks for
# nothing there. What the variables out and err name takes the place of the two streams: a closed stream
# where it is `closed`, a pipe that nobody reads where it is `unread`. What the variable begun names is an
# output that holds so many bytes of its text, as `o.asc:0`.
ends() {
    local status=$1 line=$2 summary=$3 made file
    shift 3
    local out=${out:-$work/out} err=${err:-$work/err} before wrong=()
    true >"$work/out"
    true >"$work/err"
    before=$(ls -A)
    if [ "$out" = unread ]; then
        unread_pipe
        env --default-signal=PIPE "$SGM" "${words[@]}" 1>&"$pipe" 2>"$err"
    elif [ "$err" = unread ]; then
        unread_pipe
        env --default-signal=PIPE "$SGM" "${words[@]}" >"$out" 2>&"$pipe"
    elif [ "$out" = closed ]; then
        "$SGM" "${words[@]}" >&- 2>"$err"
    elif [ "$err" = closed ]; then
        "$SGM" "${words[@]}" >"$out" 2>&-
    else
        "$SGM" "${words[@]}" >"$out" 2>"$err"
    fi
    made=$?
    [ "$made" = "$status" ] || wrong+=("status $made, not $status")
    if [ "$line" = - ]; then printf ''; else printf '%s\n' "$line"; fi | cmp -s - "$work/err" ||
        wrong+=("standard error has '$(cat "$work/err")', not '$line'")
    if [ "$summary" = - ]; then printf ''; else printf '%s\n' "$summary"; fi | cmp -s - "$work/out" ||
        wrong+=("standard output has '$(cat "$work/out")', not '$summary'")
    [ "$(ls -A)" = "$(printf '%s\n' "$before" "$@" ${begun:+"${begun%:*}"} | sort -u)" ] || wrong+=("the files are $(find . -mindepth 1 -printf '%P ')")
    for file in "$@"; do
        cmp -s "$file" "$whole/$file" || wrong+=("$file isn't whole")
    done
    [ -z "${begun-}" ] || head -c "${begun#*:}" "$whole/${begun%:*}" | cmp -s - "${begun%:*}" ||
        wrong+=("${begun%:*} doesn't hold its first ${begun#*:} bytes")
    if [ ${#wrong[@]} = 0 ]; then
        passed=$((passed + 1))
    else
        failed=$((failed + 1))
        printf "wrong: $case: %s\n" "${wrong[@]}"
    fi
    cd "$work" || exit 1
}

# stands: whether the outputs are those of a run that stopped at one of them: the ones before it whole, that one
# absent or the beginning of its text, and no other.
stands() {
    local at=0 file
    while [ $at -lt 3 ] && cmp -s "${outputs[at]}" "$whole/${outputs[at]}"; do at=$((at + 1)); done
    [ $at = 3 ] && return
    file=${outputs[at]}
    [ ! -e "$file" ] || cmp -s -n "$(stat -c %s "$file")" "$file" "$whole/$file" || return
    for file in "${outputs[@]:at + 1}"; do [ ! -e "$file" ] || return; done
}

# within LIMIT [WORD..]: the status of the program itself where it may have so many kilobytes of memory.
within() {
    (prlimit --as=$((1024 * $1)) "$program" "${@:2}" >"$work/out" 2>"$work/err" </dev/null; exit $?) 2>/dev/null
}

# less_memory BEGIN: less and less memory, by steps of a twentieth and, where little is left, of 16 kilobytes. Each run
# is done, or out of memory with its line; where the system can't even start the program without words, nothing is
# written.
less_memory() {
    local limit=2000000 status bare fault="" done=0 without=0 unbegun=0 stood=$whole
    "$1" "less and less memory, $1"
    [ "$1" != begin ] || words+=(strips=3 workers=2)
    { printf 'P5\n120 120\n255\n' && head -c 14400 /dev/zero; } >l.pgm
    cp l.pgm r.pgm
    sed -i 's/"count": *2/"count": 64/' c.json
    whole=$work/roomy-$1
    mkdir "$whole"
    "$program" "${words[@]}" >"$whole/out" && mv "${outputs[@]}" "$whole" || exit 1
    while [ $limit -gt 0 ] && [ -z "$fault" ]; do
        rm -f "${outputs[@]}"
        within $limit
        bare=$?
        within $limit "${words[@]}"
        status=$?
        case $status,$bare,$1 in
        0,*)
            done=$((done + 1))
            cmp -s "$work/out" "$whole/out" && [ ! -s "$work/err" ] && stands && [ -e o.csv ] || fault=whole
            ;;
        6,*)
            without=$((without + 1))
            [ "$(cat "$work/err")" = 'sgm: no memory' ] && [ ! -s "$work/out" ] && stands || fault=told
            ;;
        *)
            unbegun=$((unbegun + 1))
            [ "$bare" != 2 ] && [ ! -s "$work/out" ] && ! ls o.* >/dev/null 2>&1 || fault="status $status"
            ;;
        esac
        if [ $limit -gt 16384 ]; then limit=$((limit * 19 / 20)); else limit=$((limit - 16)); fi
    done
    if [ -z "$fault" ] && [ $done -gt 0 ] && [ $without -gt 0 ]; then
        passed=$((passed + 1))
    else
        failed=$((failed + 1))
        echo "wrong: $case: at $limit KB: $fault; standard error has '$(cat "$work/err")'; $done done, $without without memory"
    fi
    whole=$stood
    cd "$work" || exit 1
    told+="; by memory ($1) $done done, $without out of it, $unbegun not begun by the system"
}

# changing_file HOW LEAST MOST: runs over a left picture whose length goes to and fro between these numbers of bytes,
# as fast as it can, all of it zeros but the header. Each run is done, or refuses it as cut short or too long.
changing_file() {
    local status run line have done=0 cut=0 long=0 before=$failed
    begin "a file that gets $1"
    { printf 'P5\n2048 1024\n65535\n' && head -c 4194304 /dev/zero; } >l.pgm
    cp l.pgm r.pgm
    echo "{$plain}" | sed 's/"count": *2/"count": 1/' >c.json
    "$SGM" "${words[@]}" >"$work/out" && mv o.pgm "$work/unchanged" || exit 1
    python3 - "$2" "$3" <<'END' &
import os, random, sys
least, most = map(int, sys.argv[1:])
draw = random.Random(1)
with open("l.pgm", "r+b", buffering=0) as file:
    while True:
        os.ftruncate(file.fileno(), draw.choice([least, most, draw.randint(least, most)]))
END
    helper=$!
    for ((run = 0; run < 40; run++)); do
        rm -f o.pgm
        "$SGM" "${words[@]}" >"$work/out" 2>"$work/err"
        status=$?
        line=$(cat "$work/err")
        have=${line#sgm: left: raster has }
        have=${have% of 4194304 bytes}
        if [ "$status,$line,$(cat "$work/out")" = "0,,valid 2097152 of 2097152" ] && cmp -s o.pgm "$work/unchanged"; then
            done=$((done + 1))
        elif [ "$status,$line" = "3,sgm: left is too long" ] && [ ! -s "$work/out" ] && [ ! -e o.pgm ]; then
            long=$((long + 1))
        elif [[ $status = 3 && $line = "sgm: left: raster has "*" of 4194304 bytes" && $have =~ ^[0-9]+$ ]] &&
            [ "$have" -lt 4194304 ] && [ ! -s "$work/out" ] && [ ! -e o.pgm ]; then
            cut=$((cut + 1))
        else
            failed=$((failed + 1))
            echo "wrong: $case: status $status, '$line', '$(cat "$work/out")'"
        fi
    done
    kill "$helper"
    wait "$helper" 2>/dev/null
    helper=
    [ $failed != "$before" ] || passed=$((passed + 1))
    cd "$work" || exit 1
    told+="; a file that gets $1: $done done, $cut cut short, $long too long"
}

# What is written where nothing is wrong, worked out on paper: index 0 has no depth; index 1 lies 50 mm high.
whole=$work/whole
mkdir "$whole"
printf 'P5\n5 3\n65535\n' >"$whole/o.pgm"
for _ in 1 2 3; do printf '\0\20\0\20\0\40\0\40\0\40' >>"$whole/o.pgm"; done
cat >"$whole/o.asc" <<'ASC'
ncols 4
nrows 3
xllcorner 2000
yllcorner -2000
cellsize 1000
NODATA_value -2147483648
50000 50000 50000 -2147483648
50000 50000 50000 -2147483648
50000 50000 50000 -2147483648
ASC
cat >"$whole/o.csv" <<'CSV'
region,cells,empty,fill,cut,lowest,highest
all,9,3,90000000000,0,50000,50000
east,0,1,0,0,,
CSV

# What the certificate of the pixel (2, 1) shows, and the example's grid and a later one of the same ground, with what
# the change between the two writes: all by hand.
certificate=$'least 15\n0 1 0 8 0\n1 1 0 6 0\n2 1 1 0 1'
cp "$whole/o.asc" "$work/e.asc"
changed=$work/changed
mkdir "$changed"
{
    head -n 6 "$whole/o.asc"
    echo 51000 50000 50000 50000
    echo -2147483648 50000 50000 -2147483648
    echo 50000 50000 50000 -2147483648
} >"$work/l.asc"
{
    head -n 5 "$whole/o.asc"
    printf '%s\n' 'NODATA_value -9999999999' '1000 0 0 -9999999999' '-9999999999 0 0 -9999999999' '0 0 0 -9999999999'
} >"$changed/o.asc"
printf 'both,come,gone,empty,fill,cut\n8,1,1,2,1000000000,0\n' >"$changed/o.csv"
both=(o.asc o.csv) compared='compared 8 of 12'

# What the merge of both writes by the calibration of the example, which keeps the highest: by hand, too.
merged=$work/merged
mkdir "$merged"
{
    head -n 6 "$whole/o.asc"
    printf '%s\n' '51000 50000 50000 50000' '50000 50000 50000 -2147483648' '50000 50000 50000 -2147483648'
} >"$merged/o.asc"
cat >"$merged/o.csv" <<'CSV'
region,cells,empty,fill,cut,lowest,highest
all,10,2,101000000000,0,50000,51000
east,1,0,0,10000000000,50000,50000
CSV
joined='merged 10 of 12'

# merge_ends: the ends of a merge.
merge_ends() {
    local whole=$merged file count output stream
    begin_merge "a merge"
    ends 0 - "$joined" "${both[@]}"
    begin_merge "a merge over older outputs"
    echo older >o.asc
    echo older >o.csv
    ends 0 - "$joined" "${both[@]}"
    begin_merge "a list with white space, and an entry that is named twice"
    printf ' \n\te.asc\r\n\nl.asc \n./e.asc' >m.txt
    ends 0 - "$joined" "${both[@]}"
    begin_merge "a merge without regions"
    echo "{$plain,$camera,$grid}" >c.json
    ends 0 - "$joined" o.asc
    begin_merge "a merge without a grid"
    echo "{$plain,$camera}" >c.json
    ends 3 'sgm: calibration: grid is missing' -
    begin_merge "a merge by the plain settings"
    words[2]=-
    ends 3 'sgm: calibration: grid is missing' -
    begin_merge "a list without entries"
    printf '\n \t\n' >m.txt
    ends 3 'sgm: list: no entries' -
    begin_merge "a list of two words"
    echo e.asc l.asc >>m.txt
    ends 3 'sgm: list: line 3 does not have one word' -
    begin_merge "a list that is no text"
    printf '\xff' >>m.txt
    ends 3 'sgm: list: not text' -
    begin_merge "a list of too many entries"
    for ((count = 0; count < 1001; count++)); do echo e.asc; done >m.txt
    ends 3 'sgm: list: too many entries' -
    begin_merge "an entry that is an output"
    echo o.csv >>m.txt
    ends 3 'sgm: list: grid 2 is also an output' -
    begin_merge "a list that is too long"
    truncate -s 1048577 m.txt
    ends 3 'sgm: list is too long' -
    begin_merge "an entry that is too long"
    truncate -s 268435457 l.asc
    ends 3 'sgm: grid 1 is too long' -
    begin_merge "an entry beside the cells"
    sed -i 's/yllcorner -2000/yllcorner -1999/' l.asc
    ends 3 "sgm: grid 1: not on the calibration's cells" -
    begin_merge "an entry with a height too few, before one that is absent"
    sed -i '$ s/ [^ ]*$//' e.asc
    rm l.asc
    ends 3 'sgm: grid 0: 11 heights, 12 needed' -
    begin_merge "an output that is also the list"
    words[1]=o.asc
    ends 2 'sgm: word 1 is also an output' -
    begin_merge "an option of a merge"
    words+=(workers=2)
    ends 2 'sgm: word 4 is not an option' -
    begin_merge "a merge in no folder"
    words[3]=none/o
    ends 5 'sgm: cannot write heights' -
    count=0
    for output in heights report; do
        file=${both[count]}
        begin_merge "a merge with a folder as $output"
        mkdir "$file"
        ends 5 "sgm: cannot write $output" - "${both[@]:0:count}"
        begin_merge "a merge with a full device for $output"
        ln -s /dev/full "$file"
        ends 5 "sgm: cannot write $output" - "${both[@]:0:count}"
        count=$((count + 1))
    done
    for stream in closed /dev/full unread; do
        begin_merge "a merge to standard output $stream"
        out=$stream ends 5 'sgm: cannot write summary' - "${both[@]}"
    done
}

# merge_disks: those on full disks, of which the inputs take six pages and each output one.
merge_disks() {
    local whole=$merged count=0 output
    for output in heights report; do
        pages=$((6 + count)) begin_merge "a full disk for $output of a merge"
        begun=${both[count]}:0 ends 5 "sgm: cannot write $output" - "${both[@]:0:count}"
        count=$((count + 1))
    done
    pages=8 begin_merge "a disk with room for a merge"
    ends 0 - "$joined" "${both[@]}"
}

# third_outputs BEGIN SUMMARY OUTPUT..: what such a run ends with where it is done, and where one of its outputs is a
# folder or a full device, or a stream is closed, full or read by nobody.
third_outputs() {
    local start=$1 summary=$2 count=0 file output stream
    shift 2
    "$start" "$start: done"
    ends 0 - "$summary" "$@"
    "$start" "$start: over older outputs"
    for file; do echo older >"$file"; done
    ends 0 - "$summary" "$@"
    for file; do
        output=${name_of[$file]}
        "$start" "$start: a folder as $output"
        mkdir "$file"
        ends 5 "sgm: cannot write $output" - "${@:1:count}"
        "$start" "$start: a full device for $output"
        ln -s /dev/full "$file"
        ends 5 "sgm: cannot write $output" - "${@:1:count}"
        count=$((count + 1))
    done
    for stream in closed /dev/full unread; do
        "$start" "$start: standard output $stream"
        out=$stream ends 5 'sgm: cannot write summary' - "$@"
        "$start" "$start: standard error $stream"
        rm c.json
        err=$stream ends 4 - -
    done
}

# third_disks BEGIN SUMMARY OUTPUT..: the same of full disks. The inputs take six pages, and each output one.
third_disks() {
    local start=$1 summary=$2 count=0 file output
    shift 2
    for file; do
        output=${name_of[$file]}
        pages=$((6 + count)) "$start" "$start: a full disk for $output"
        begun=$file:0 ends 5 "sgm: cannot write $output" - "${@:1:count}"
        count=$((count + 1))
    done
    pages=$((6 + $#)) "$start" "$start: a disk with room"
    ends 0 - "$summary" "$@"
}

# third_whole BEGIN: what the separate implementation writes there, in the folder third-BEGIN; prints its summary.
third_whole() {
    "$1" "$1: the reference"
    "$here/reference.py" "${words[@]}" || exit 1
    mkdir "$work/third-$1" && mv o.* "$work/third-$1" || exit 1
}

need_program
declare -A name_of=([o.pgm]=disparity [o.asc]=heights [o.csv]=report)
write_third "$work/third" && third=$(third_whole begin_third) || exit 1
if has_merge; then third_merge=$(third_whole begin_third_merge) || exit 1; fi

begin "done"
ends 0 - 'valid 15 of 15' "${outputs[@]}"
begin "one strip"
words+=(strips=1)
ends 0 - 'valid 15 of 15' "${outputs[@]}"
begin "strips and workers"
words+=(strips=3 workers=2)
ends 0 - 'valid 15 of 15' "${outputs[@]}"
begin "no regions"
echo "{$plain,$camera,$grid}" >c.json
ends 0 - 'valid 15 of 15' o.pgm o.asc
begin "a camera without a grid"
echo "{$plain,$camera}" >c.json
ends 0 - 'valid 15 of 15' o.pgm
begin "disparities alone"
echo "{$plain}" >c.json
ends 0 - 'valid 15 of 15' o.pgm
begin "a grid without a camera"
echo "{$plain,$grid}" >c.json
ends 3 'sgm: calibration: camera is missing' -
begin "regions without a grid"
echo "{$plain,$camera,$regions}" >c.json
ends 3 'sgm: calibration: grid is missing' -
begin "an output that was there"
echo old >o.pgm
ends 0 - 'valid 15 of 15' "${outputs[@]}"

begin "no words"
words=()
ends 2 'sgm: no command' -
begin "a wrong option"
words+=(workers=17)
ends 2 'sgm: word 5 is not an option' -
begin "a word that is not UTF-8"
words[1]=$'\xff'
ends 1 - -

begin "a picture that is cut short"
printf 'P5\n5 3\n255\n' >r.pgm
ends 3 'sgm: right: raster has 0 of 15 bytes' -
begin "a picture that is too long"
truncate -s 67108865 l.pgm
ends 3 'sgm: left is too long' -
begin "a calibration that is too long"
truncate -s 16777217 c.json
ends 3 'sgm: calibration is too long' -

named=(begin{,_trace,_third}:{left:l.pgm,right:r.pgm,calibration:c.json} begin_change:{earlier:e.asc,later:l.asc})
if has_merge; then
    named+=(begin{,_third}_merge:{list:m.txt,calibration:c.json,'grid 0':e.asc,'grid 1':l.asc})
fi
for input in "${named[@]}"; do
    IFS=: read -r start what file <<<"$input"
    "$start" "$start: no $what"
    rm "$file"
    ends 4 "sgm: cannot read $what" -
    "$start" "$start: a folder as $what"
    rm "$file" && mkdir "$file"
    ends 4 "sgm: cannot read $what" -
    "$start" "$start: a loop of links as $what"
    rm "$file" && ln -s "$file" "$file"
    ends 4 "sgm: cannot read $what" -
    if [ "$(id -u)" != 0 ]; then
        "$start" "$start: $what that may not be read"
        chmod 000 "$file"
        ends 4 "sgm: cannot read $what" -
    fi
done

begin "an output in no folder"
words[4]=none/o
ends 5 'sgm: cannot write disparity' -
count=0
for output in disparity heights report; do
    file=${outputs[count]}
    begin "a folder as $output"
    mkdir "$file"
    ends 5 "sgm: cannot write $output" - "${outputs[@]:0:count}"
    begin "a full device for $output"
    ln -s /dev/full "$file"
    ends 5 "sgm: cannot write $output" - "${outputs[@]:0:count}"
    count=$((count + 1))
done

# Certificates and changes.
begin_trace "a certificate"
ends 0 - "$certificate"
begin_trace "a certificate with numbers that begin with zeros"
words=(trace l.pgm r.pgm c.json right 002 01 000000000001)
ends 0 - "$certificate"
begin_trace "a certificate of a ray of one pixel"
words=(trace l.pgm r.pgm c.json down 0 0 0)
ends 0 - $'least 8\n0 0 0 8 0'
begin_trace "a column that is not there"
words[5]=5
ends 3 'sgm: no pixel 5 1 with index 1' -
begin_trace "a row that is not there"
words[6]=3
ends 3 'sgm: no pixel 2 3 with index 1' -
begin_trace "an index that is not there"
words[7]=2
ends 3 'sgm: no pixel 2 1 with index 2' -
begin_trace "no such direction"
words[4]=sideways
ends 2 'sgm: word 4 is not a direction' -
begin_trace "no number"
words[6]=-1
ends 2 'sgm: word 6 is not a number in range' -
begin_trace "an option of a certificate"
words+=(strips=1)
ends 2 'sgm: word 8 is not an option' -
begin_trace "a certificate of two sizes"
printf 'P5\n4 3\n255\n123412341234' >r.pgm
ends 3 'sgm: sizes differ: 5x3 and 4x3' -

whole=$changed
begin_change "a change"
ends 0 - "$compared" "${both[@]}"
begin_change "a change over older outputs"
echo older >o.asc
echo older >o.csv
ends 0 - "$compared" "${both[@]}"
begin_change "a change of grids in other white space and case"
tr ' \n' '\n\t' <e.asc | tr '[:lower:]' '[:upper:]' >other && mv other e.asc
sed 's/$/\r/; s/ /  /g' l.asc >other && mv other l.asc
ends 0 - "$compared" "${both[@]}"
begin_change "two grounds"
sed -i 's/cellsize 1000/cellsize 2000/' l.asc
ends 3 'sgm: grids differ at word 9' -
begin_change "a height too few"
sed -i '$ s/ [^ ]*$//' l.asc
ends 3 'sgm: later: 11 heights, 12 needed' -
begin_change "an empty grid"
true >e.asc
ends 3 'sgm: earlier: word 0 is not as expected' -
begin_change "a difference as a grid"
cp "$changed/o.asc" l.asc
ends 3 'sgm: later: word 11 is out of range' -
begin_change "a height too high"
sed -i 's/51000/2000000001/' l.asc
ends 3 'sgm: later: height 0 is not in range' -
begin_change "a grid that is too long"
truncate -s 268435457 l.asc
ends 3 'sgm: later is too long' -
begin_change "an output that is also the later grid"
words=(change e.asc o.csv o)
ends 2 'sgm: word 2 is also an output' -
begin_change "an option of a change"
words+=(workers=2)
ends 2 'sgm: word 4 is not an option' -
begin_change "a difference in no folder"
words[3]=none/o
ends 5 'sgm: cannot write difference' -
count=0
for output in difference volumes; do
    file=${both[count]}
    begin_change "a folder as $output"
    mkdir "$file"
    ends 5 "sgm: cannot write $output" - "${both[@]:0:count}"
    begin_change "a full device for $output"
    ln -s /dev/full "$file"
    ends 5 "sgm: cannot write $output" - "${both[@]:0:count}"
    count=$((count + 1))
done
whole=$work/whole

if has_merge; then merge_ends; fi

# Version 3 with everything on.
whole=$work/third-begin_third
third_outputs begin_third "$third" "${outputs[@]}"
whole=$work/third-begin_third_merge
if has_merge; then third_outputs begin_third_merge "$third_merge" "${both[@]}"; fi
whole=$work/whole

# Warps that leave every pixel where it is, in each of their kinds.
identity='{"kind":"identity"}'
mesh() { # mesh COLS ROWS: nodes two pixels apart that map each pixel to itself
    local x y nodes=
    for ((y = 0; y < $2; y++)); do
        for ((x = 0; x < $1; x++)); do nodes+=,$((512 * x)),$((512 * y)); done
    done
    echo "{\"kind\":\"mesh\",\"step\":2,\"cols\":$1,\"rows\":$2,\"nodes\":[${nodes#,}]}"
}
matrix() { # matrix A0 .. A8
    local IFS=,
    echo "{\"kind\":\"projective\",\"matrix\":[$*]}"
}
warped() { echo "{$plain,\"warp\":{\"left\":$1,\"right\":$2},$camera,$grid,$regions}" >c.json; }

begin "both identity"
warped "$identity" "$identity"
ends 0 - 'valid 15 of 15' "${outputs[@]}"
begin "both projective"
warped "$(matrix 1 0 0 0 1 0 0 0 1)" "$(matrix 7 0 0 0 7 0 0 0 7)"
ends 0 - 'valid 15 of 15' "${outputs[@]}"
begin "both meshes"
warped "$(mesh 4 3)" "$(mesh 4 3)"
ends 0 - 'valid 15 of 15' "${outputs[@]}"
begin "one of each"
warped "$(matrix 1 0 0 0 1 0 0 0 1)" "$(mesh 4 3)"
ends 0 - 'valid 15 of 15' "${outputs[@]}"

# The right picture's first column is the left one's second. Shifted by a column, each equals the other one
# but for a void column, so every other pixel has index 0, and no depth.
whole=$work/shifted
mkdir "$whole"
head -n 6 "$work/whole/o.asc" >"$whole/o.asc"
for _ in 1 2 3; do echo -2147483648 -2147483648 -2147483648 -2147483648; done >>"$whole/o.asc"
printf 'region,cells,empty,fill,cut,lowest,highest\nall,0,12,0,0,,\neast,0,1,0,0,,\n' >"$whole/o.csv"
printf 'P5\n5 3\n65535\n' >"$whole/o.pgm"
for _ in 1 2 3; do printf '\0\20\0\20\0\20\0\20\0\0' >>"$whole/o.pgm"; done
begin "the left picture shifted"
warped "$(matrix 1 0 1 0 1 0 0 0 1)" "$identity"
ends 0 - 'valid 12 of 15' "${outputs[@]}"
printf 'P5\n5 3\n65535\n' >"$whole/o.pgm"
for _ in 1 2 3; do printf '\0\0\0\20\0\20\0\20\0\20' >>"$whole/o.pgm"; done
begin "the right picture shifted"
warped "$identity" "$(matrix 1 0 -1 0 1 0 0 0 1)"
ends 0 - 'valid 12 of 15' "${outputs[@]}"
whole=$work/whole

# The corners of 5 x 3 pixels are (0, 0), (4, 0), (0, 2), (4, 2); each matrix has 0 there, the last one below.
corner=0
for below in "1 1 0" "-1 0 4" "0 -1 2" "-1 -1 6" "-1 -1 5"; do
    for side in left right; do
        begin "a denominator $side $below"
        read -ra last <<<"$below"
        bad=$(matrix 1 0 0 0 1 0 "${last[@]}")
        if [ $side = left ]; then warped "$bad" "$identity"; else warped "$identity" "$bad"; fi
        ends 3 "sgm: $side warp: denominator not positive at corner $((corner < 3 ? corner : 3))" -
    done
    corner=$((corner + 1))
done
for size in 3x3 5x3 4x2 4x4; do
    for side in left right; do
        begin "a mesh $side $size"
        bad=$(mesh ${size%x*} ${size#*x})
        if [ $side = left ]; then warped "$bad" "$identity"; else warped "$identity" "$bad"; fi
        ends 3 "sgm: $side warp: mesh is $size, 4x3 needed" -
    done
done
for side in left right; do
    begin "a mesh $side for two pixels"
    for file in l.pgm r.pgm; do printf 'P5\n2 1\n255\n\0\377' >$file; done
    bad='{"kind":"mesh","step":2,"cols":3,"rows":2,"nodes":[0,0,512,0,1024,0,0,512,512,512,1024,512]}'
    if [ $side = left ]; then warped "$bad" "$identity"; else warped "$identity" "$bad"; fi
    ends 3 "sgm: $side warp: mesh is 3x2, 2x2 needed" -
done
begin "both warps wrong"
warped "$(mesh 4 2)" "$(matrix 1 0 0 0 1 0 0 0 0)"
ends 3 'sgm: left warp: mesh is 4x2, 4x3 needed' -
begin "two sizes and a wrong warp"
warped "$(mesh 4 2)" "$identity"
printf 'P5\n4 3\n255\n123412341234' >r.pgm
ends 3 'sgm: sizes differ: 5x3 and 4x3' -

# The calibrations with one fault each.
python3 "$here/calibration_cases.py" "$work/calibrations" || exit 1
for file in "$work"/calibrations/*.json; do
    begin "calibration $(basename "$file" .json)"
    cp "$file" c.json
    ends 3 "$(cat "${file%.json}.line")" -
done

begin "a closed standard output"
out=closed ends 5 'sgm: cannot write summary' - "${outputs[@]}"
begin "a full standard output"
out=/dev/full ends 5 'sgm: cannot write summary' - "${outputs[@]}"
begin "a demo with a full standard output"
words=(demo 0)
out=/dev/full ends 5 'sgm: cannot write summary' -
for stream in closed /dev/full unread; do
    begin_trace "a certificate to standard output $stream"
    out=$stream ends 5 'sgm: cannot write summary' -
    whole=$changed
    begin_change "a change to standard output $stream"
    out=$stream ends 5 'sgm: cannot write summary' - "${both[@]}"
    whole=$work/whole
done
begin "a closed standard error"
rm l.pgm
err=closed ends 4 - -
begin "a full standard error"
rm l.pgm
err=/dev/full ends 4 - -

begin "standard output that nobody reads"
out=unread ends 5 'sgm: cannot write summary' - "${outputs[@]}"
begin "a demo whose output nobody reads"
words=(demo 0)
out=unread ends 5 'sgm: cannot write summary' -
begin "standard error that nobody reads"
rm l.pgm
err=unread ends 4 - -

# Full disks. The three inputs take a page each, and so does each output.
mkdir "$work/disk"
if mount -t tmpfs -o size=4096 none "$work/disk" 2>"$work/mount"; then
    umount "$work/disk"
    count=0
    for output in disparity heights report; do
        pages=$((3 + count)) begin "a full disk for $output"
        begun=${outputs[count]}:0 ends 5 "sgm: cannot write $output" - "${outputs[@]:0:count}"
        count=$((count + 1))
    done
    pages=6 begin "a disk with room"
    ends 0 - 'valid 15 of 15' "${outputs[@]}"
    # With the two grids there are five inputs.
    whole=$changed
    count=0
    for output in difference volumes; do
        pages=$((5 + count)) begin_change "a full disk for $output"
        begun=${both[count]}:0 ends 5 "sgm: cannot write $output" - "${both[@]:0:count}"
        count=$((count + 1))
    done
    pages=7 begin_change "a disk with room for a change"
    ends 0 - "$compared" "${both[@]}"
    if has_merge; then merge_disks; fi
    whole=$work/third-begin_third
    third_disks begin_third "$third" "${outputs[@]}"
    whole=$work/third-begin_third_merge
    if has_merge; then third_disks begin_third_merge "$third_merge" "${both[@]}"; fi
    # A picture of 100 x 100 pixels, each as the other: 3 pages for each input, and 5 for OUT.pgm. Each pixel
    # has the index 0.
    whole=$work/large
    mkdir "$whole"
    { printf 'P5\n100 100\n65535\n' && for ((i = 0; i < 10000; i++)); do printf '\0\20'; done; } >"$whole/o.pgm"
    for room in 1 2 4 5; do
        pages=$((7 + room)) begin "a disk with $room pages for disparity"
        { printf 'P5\n100 100\n255\n' && head -c 10000 /dev/zero; } >l.pgm
        cp l.pgm r.pgm
        echo "{$plain}" >c.json
        if [ $room = 5 ]; then
            ends 0 - 'valid 10000 of 10000' o.pgm
        else
            begun=o.pgm:$((room * $(getconf PAGESIZE))) ends 5 'sgm: cannot write disparity' -
        fi
    done
    whole=$work/whole
else
    echo "ends: no full disk was tried: $(cat "$work/mount")"
fi

# What follows asks for the program itself: the launcher is a script, and the reference never runs out of memory.
program=$SGM
[ "$program" = "$top/sgm" ] && program=$top/crates/sgm_cli/out/sgm_cli
if head -c 4 "$program" | grep -q ELF && has prlimit; then
    begin "no memory"
    words=(match large.pgm large.pgm - o)
    { printf 'P5\n2048 2048\n255\n' && head -c 4194304 /dev/zero; } >large.pgm
    limit=$(ulimit -Sv)
    ulimit -Sv 400000
    ends 6 'sgm: no memory' -
    ulimit -Sv "$limit"
    less_memory begin
    less_memory begin_third
    changing_file "shorter" 20 8388608
    changing_file "longer" 67040000 134217728
fi

echo "ends: $passed passed, $failed failed$told"
[ "$failed" = 0 ]
