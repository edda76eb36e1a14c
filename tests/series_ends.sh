#!/usr/bin/env bash
# Tries the ends of a series from the shell: each case has a folder of its own with small pairs, a list and mostly one
# thing that is wrong. The program runs in two copies of it, with workers=1 and workers=2, and the separate
# implementation (reference_series.py) in a third. The status, the lines on standard error and the entries that are
# written stand here; standard output and all files have to be as the reference leaves them. The system's own ends are
# among them: full disks (where small ones may be mounted), streams that are closed, full or read by nobody, and less
# and less memory. The program is the one that the variable SGM_SERIES names (./sgm_series of this repository without
# it).
#
#     tests/series_ends.sh
set -u
# shellcheck source-path=SCRIPTDIR source=common.sh
. "$(dirname "$0")/common.sh"
passed=0 failed=0 told=
example=$top/crates/sgm_series_cli

disks=()
clean_up() {
    cd /
    for disk in "${disks[@]}"; do umount "$disk"; done
    chmod -R u+rwX "$work"
    rm -rf "$work"
}
trap clean_up EXIT

# A new folder with two pairs, a calibration, what is refused, and an empty list; the words are those of a good run.
begin() {
    case=$1 entries=0
    folder=$work/${case//[^a-z0-9]/-}
    words=(list.txt)
    mkdir "$folder" "$folder/given" || exit 1
    cd "$folder/given" || exit 1
    cp "$example"/data/{l.pgm,r.pgm,c.json} .
    printf 'P5\n7 2\n255\nabcdefggfedcba' >k.pgm
    printf 'P5\n7 2\n255\nbcdefghfedcbaa' >q.pgm
    printf 'P5\n4 3\n255\n123412341234' >s.pgm
    echo "P2 1 1 255 7" >bad.pgm
    echo "{" >bad.json
    true >list.txt
}

# put LEFT RIGHT CALIB [OUT]: one entry more, whose OUT is o and its number where none is given.
put() {
    echo "$1 $2 $3 ${4-o$entries}" >>list.txt
    entries=$((entries + 1))
}

# good [COUNT]: so many entries more that are in order, of three kinds in turn.
good() {
    local count=${1-1}
    while [ "$count" -gt 0 ]; do
        case $((entries % 3)) in
        0) put l.pgm r.pgm c.json ;;
        1) put l.pgm r.pgm - ;;
        2) put k.pgm q.pgm - ;;
        esac
        count=$((count - 1))
    done
}

# fill BYTES: makes the list so long by spaces.
fill() { printf '%*s' $(($1 - $(stat -c %s list.txt))) "" >>list.txt; }

# Entries that are refused, and their lines.
two_sizes() { put l.pgm s.pgm -; }
no_picture() { put bad.pgm r.pgm -; }
no_json() { put l.pgm r.pgm bad.json; }
two_sizes_line='sgm: sizes differ: 5x3 and 4x3'
no_picture_line='sgm: left: not a binary PGM'
no_json_line='sgm: calibration: not JSON'

# started FOLDER COMMAND..: runs in the folder, and sets status. What the variables out and err name takes the place of
# the two streams: a closed stream where it is `closed`, a pipe that nobody reads where it is `unread`. What goes
# to neither is in FOLDER.out and FOLDER.err.
started() {
    local at=$1 out=${out:-$1.out} err=${err:-$1.err}
    shift
    true >"$at.out"
    true >"$at.err"
    cd "$at" || exit 1
    case $out,$err in
    unread,*) unread_pipe && env --default-signal=PIPE "$@" 1>&"$pipe" 2>"$err" ;;
    *,unread) unread_pipe && env --default-signal=PIPE "$@" >"$out" 2>&"$pipe" ;;
    closed,*) "$@" >&- 2>"$err" ;;
    *,closed) "$@" >"$out" 2>&- ;;
    *) "$@" >"$out" 2>"$err" ;;
    esac </dev/null
    status=$?
}

# A copy of the case's folder under another name; a disk of so many pages where the variable pages names a number.
copy() {
    mkdir "$folder/$1"
    if [ -n "${pages-}" ]; then
        mount -t tmpfs -o "size=$((pages * $(getconf PAGESIZE)))" none "$folder/$1" || exit 1
        disks+=("$folder/$1")
    fi
    cp -a --sparse=always "$folder/given/." "$folder/$1" || exit 1
}

# compare FOLDER STATUS WRITTEN LINES: what a run there has left, and what isn't as it should be, in wrong.
compare() {
    local at=$folder/$1 entry those lines
    [ "$status" = "$2" ] || wrong+=("$1: status $status, not $2")
    printf '%s' "$4" | cmp -s - "$at.err" || wrong+=("$1: standard error has '$(cat "$at.err")', not '$4'")
    read -ra those <<<"$3"
    lines=$(wc -l <"$at.out")
    [ "$lines" = ${#those[@]} ] || wrong+=("$1: standard output has $lines lines, not ${#those[@]}")
    for entry in "${those[@]}"; do
        [ "$entry" = - ] || [ -s "$at/o$entry.pgm" ] || wrong+=("$1: o$entry.pgm isn't there")
    done
    cmp -s "$at.out" "$folder/reference.out" || wrong+=("$1: standard output isn't the reference's")
    lines=$(diff -r --no-dereference "$folder/reference" "$at" 2>&1) || wrong+=("$1: the files aren't the reference's: $lines")
}

# ends STATUS WRITTEN [LINE..]: runs the words with each number of workers, and compares. WRITTEN are the numbers of
# the entries whose summaries standard output receives, `-` for one whose OUT is another. Where a word for the workers
# stands already, none is added.
ends() {
    local wanted=$1 written=$2 line="" workers more wrong=()
    shift 2
    [ $# = 0 ] || line=$(printf '%s\n' "$@")$'\n'
    copy reference
    started "$folder/reference" "$here/reference_series.py" "${words[@]}"
    compare reference "$wanted" "$written" "$line"
    for workers in 1 2; do
        more=("workers=$workers")
        [ ${#words[@]} = 1 ] && [ -n "${words[0]}" ] || more=()
        copy $workers
        started "$folder/$workers" "$SGM_SERIES" "${words[@]}" "${more[@]}"
        compare $workers "$wanted" "$written" "$line"
    done
    told_of
}

# Counts a case, whose faults are in wrong.
told_of() {
    if [ ${#wrong[@]} = 0 ]; then
        passed=$((passed + 1))
    else
        failed=$((failed + 1))
        printf "wrong: $case: %s\n" "${wrong[@]}"
    fi
    cd "$work" || exit 1
}

numbers() { seq -s ' ' "$1" "$2"; }

need_series

# The example of the stored run, whose files are worked out on paper: in the first entry index 0 has no depth and index
# 1 lies 50 mm high; in the second no disparity but 0 suits rows that are as short as half the window.
worked() { # worked WORD..
    local wrong=() file
    begin "the worked example with ${*:-no number}"
    cp "$example"/data/* .
    started "$folder/given" "$SGM_SERIES" list.txt "$@"
    [ "$status" = 0 ] || wrong+=("status $status")
    cmp -s "$folder/given.out" "$example/stdout" || wrong+=("standard output has '$(cat "$folder/given.out")'")
    [ ! -s "$folder/given.err" ] || wrong+=("standard error has '$(cat "$folder/given.err")'")
    [ "$(cd "$folder/given" && echo *)" = "bad.json bad.pgm c.json k.pgm l.pgm list.txt o.asc o.csv o.pgm p.pgm q.pgm r.pgm s.pgm" ] ||
        wrong+=("the files are $(cd "$folder/given" && echo *)")
    for file in o.pgm o.asc o.csv p.pgm; do
        cmp -s "$folder/given/$file" "$work/whole/$file" || wrong+=("$file isn't whole")
    done
    told_of
}
mkdir "$work/whole"
printf 'P5\n5 3\n65535\n' | tee "$work/whole/p.pgm" >"$work/whole/o.pgm"
for _ in 1 2 3; do
    printf '\0\20\0\20\0\40\0\40\0\40' >>"$work/whole/o.pgm"
    printf '\0\20\0\20\0\20\0\20\0\20' >>"$work/whole/p.pgm"
done
printf '%s\n' 'ncols 4' 'nrows 3' 'xllcorner 2000' 'yllcorner -2000' 'cellsize 1000' 'NODATA_value -2147483648' \
    '50000 50000 50000 -2147483648' '50000 50000 50000 -2147483648' '50000 50000 50000 -2147483648' >"$work/whole/o.asc"
printf '%s\n' region,cells,empty,fill,cut,lowest,highest all,9,3,90000000000,0,50000,50000 east,0,1,0,0,, >"$work/whole/o.csv"
for file in l.pgm r.pgm c.json; do
    begin "$file is that of the other program's example"
    wrong=()
    cmp "$example/data/$file" "$top/crates/sgm_cli/data/$file" || wrong+=("it isn't")
    told_of
done
worked
worked workers=1
worked workers=2

# The words.
begin "no word"
words=()
ends 2 "" 'sgm_series: no list'
begin "an empty word"
words=("")
ends 2 "" 'sgm_series: no list'
begin "an empty word before a wrong one"
words=("" workers=3)
ends 2 "" 'sgm_series: no list'
for word in workers=0 workers=3 workers=01 workers=+1 workers= workers 2 strips=2 WORKERS=1 "workers=1 " ""; do
    begin "the word '$word' second"
    good
    words+=("$word")
    ends 2 "" 'sgm_series: word 1 is not accepted'
done
for word in workers=1 workers=2 x ""; do
    begin "the word '$word' third"
    good
    words+=(workers=2 "$word")
    ends 2 "" 'sgm_series: word 2 is not accepted'
done
begin "two wrong words"
words+=(workers=3 x)
ends 2 "" 'sgm_series: word 1 is not accepted'
begin "wrong words and no list"
words=(none workers=3)
ends 2 "" 'sgm_series: word 1 is not accepted'
begin "a word that is not UTF-8"
words+=($'\xff')
ends 1 ""
begin "a list whose name is not UTF-8"
words=($'\xff' workers=1)
ends 1 ""
begin "a list named as an option"
good 2
mv list.txt workers=2
words=(workers=2)
ends 0 "0 1"

# The list.
begin "an empty list"
ends 0 ""
begin "a list without words"
printf ' \t\r\n\n  \n\r' >list.txt
ends 0 ""
begin "no file as the list"
words=(/dev/null)
ends 0 ""
begin "white space of all kinds"
printf '\n\t l.pgm \t r.pgm\rc.json  o0 \r\n \r\nl.pgm r.pgm - o1' >list.txt
ends 0 "0 1"
begin "words of any letters"
odd=$'\v\f\u00a0\u2028\u00e4#"'
put l.pgm r.pgm - "o$odd"
put l.pgm r.pgm c.json
cp l.pgm "l$odd.pgm"
put "l$odd.pgm" r.pgm -
mkdir there
put l.pgm there/../r.pgm - ./o3
ends 0 "- 1 2 3"
begin "the list at a path"
mkdir lists
good 3
mv list.txt lists/it
words=(./lists/../lists/it)
ends 0 "0 1 2"
begin "no list at that name"
rm list.txt
ends 4 "" 'sgm_series: cannot read the list'
begin "a folder as the list"
rm list.txt && mkdir list.txt
ends 4 "" 'sgm_series: cannot read the list'
begin "a loop of links as the list"
rm list.txt && ln -s list.txt list.txt
ends 4 "" 'sgm_series: cannot read the list'
if [ "$(id -u)" != 0 ]; then
    begin "a list that may not be read"
    chmod 000 list.txt
    ends 4 "" 'sgm_series: cannot read the list'
fi
begin "a list as long as it may be"
good 9
fill 1048576
ends 0 "$(numbers 0 8)"
begin "a list a byte longer"
good 9
fill 1048577
ends 3 "" 'sgm_series: list is too long'
begin "a list a byte longer that is no text"
truncate -s 1048576 list.txt
printf '\377' >>list.txt
ends 3 "" 'sgm_series: list is too long'
for bytes in '\377' '\200' '\303' '\300\257' '\355\240\200' '\364\220\200\200' '\342\202'; do
    begin "a list with the bytes $bytes"
    good
    echo "one two three" >>list.txt
    # shellcheck disable=SC2059
    printf "$bytes" >>list.txt
    ends 3 "" 'sgm_series: list is not text'
done
for words_there in "one" "l.pgm r.pgm -" "l.pgm r.pgm - o4 workers=2" "l.pgm r.pgm - o4 l.pgm r.pgm - o5"; do
    begin "a line of $(wc -w <<<"$words_there") words"
    good
    echo >>list.txt
    echo " $words_there" >>list.txt
    good 1001
    put l.pgm r.pgm - o0
    echo "another" >>list.txt
    ends 3 "" 'sgm_series: line 3 does not have four words'
done
begin "a last line of three words without an end"
good 2
printf 'l.pgm r.pgm -' >>list.txt
ends 3 "" 'sgm_series: line 3 does not have four words'
begin "an entry too many"
good 1001
put l.pgm r.pgm - o0
ends 3 "" 'sgm_series: too many entries'
begin "as many entries as there may be and a clash"
good 999
put l.pgm r.pgm - o3
ends 3 "" 'sgm_series: entry 999 clashes'

# Entries that clash.
clashes() { # clashes ENTRY NAME LEFT RIGHT CALIB OUT..
    local entry=$1
    begin "$2"
    shift 2
    good 2
    while [ $# -gt 0 ]; do put "${@:1:4}" && shift 4; done
    ends 3 "" "sgm_series: entry $entry clashes"
}
clashes 2 "an OUT twice" k.pgm q.pgm - o0
clashes 3 "the later of two such" l.pgm r.pgm - o2 l.pgm r.pgm - o2
clashes 2 "the left picture is an output" o0.pgm r.pgm - o2
clashes 2 "the right picture is a later output" l.pgm o3.asc - o2 l.pgm r.pgm - o3
clashes 2 "the calibration is its own output" l.pgm r.pgm o2.csv o2
clashes 2 "a right picture that is missing too" l.pgm o1.pgm - o2
clashes 3 "an output that begins as the list does, and then a clash" l.pgm r.pgm - list.txt l.pgm o0.pgm - o3
for ending in .pgm .asc .csv; do
    begin "an output is the list, $ending"
    good 2
    put l.pgm r.pgm - list
    mv list.txt list$ending
    words=("list$ending")
    ends 3 "" "sgm_series: entry 2 clashes"
done
begin "what only looks like a clash"
good
put l.pgm r.pgm - -
put l.pgm r.pgm - ./o0
put l.pgm r.pgm - O0
put l.pgm r.pgm - o0.pgm
cp l.pgm o0
put o0 r.pgm - o5
cp l.pgm ./-.PGM
put -.PGM r.pgm - o6
put l.pgm list.txt -
# The third writes what the first has written: names are compared as they stand.
ends 3 "0 - - - - 5 6" 'sgm: right: not a binary PGM' 'sgm_series: 1 entries refused'

# Every number of entries up to two batches and a half; all in order, and every third refused.
for ((count = 1; count <= 20; count++)); do
    begin "$count entries"
    good "$count"
    ends 0 "$(numbers 0 $((count - 1)))"
    begin "$count entries, some refused"
    written="" lines=() refused=0
    while [ $entries -lt "$count" ]; do
        case $((entries % 9)) in
        0) two_sizes && lines+=("$two_sizes_line") ;;
        4) no_picture && lines+=("$no_picture_line") ;;
        8) no_json && lines+=("$no_json_line") ;;
        *) written+=" $entries" && good ;;
        esac
    done
    refused=${#lines[@]}
    ends 3 "$written" "${lines[@]}" "sgm_series: $refused entries refused"
done
begin "a thousand entries"
printf 'P5\n1 1\n255\n7' >i.pgm
while [ $entries -lt 1000 ]; do put i.pgm i.pgm -; done
ends 0 "$(numbers 0 999)"
begin "every entry refused"
for _ in 1 2 3; do two_sizes && no_picture && no_json; done
ends 3 "" "$two_sizes_line" "$no_picture_line" "$no_json_line" "$two_sizes_line" "$no_picture_line" "$no_json_line" \
    "$two_sizes_line" "$no_picture_line" "$no_json_line" 'sgm_series: 9 entries refused'
begin "older outputs"
good 2
two_sizes
good
for file in o0.pgm o1.pgm o1.csv o2.pgm o3.asc; do seq 40 >$file; done
ends 3 "0 1 3" "$two_sizes_line" 'sgm_series: 1 entries refused'

# Inputs that are too long.
for each in left:l.pgm:67108865 right:r.pgm:67108865 calibration:c.json:16777217; do
    IFS=: read -r what file size <<<"$each"
    begin "$what is too long"
    good
    truncate -s "$size" "long-$file"
    case $what in
    left) put long-l.pgm none none ;;
    right) put l.pgm long-r.pgm none ;;
    *) put l.pgm r.pgm long-c.json ;;
    esac
    good
    ends 3 "0 2" "sgm: $what is too long" 'sgm_series: 1 entries refused'
done
begin "a batch of nothing but inputs that are too long"
truncate -s 67108865 long.pgm
for ((count = 0; count < 8; count++)); do put long.pgm r.pgm -; done
good 2
lines=()
for ((count = 0; count < 8; count++)); do lines+=('sgm: left is too long'); done
ends 3 "8 9" "${lines[@]}" 'sgm_series: 8 entries refused'

# Inputs that can't be read, in either batch: what comes before their batch is written and told, and nothing else.
for place in 0 1 7 8 9 15 16; do
    for each in left:none:none:none right:l.pgm:none:none calibration:l.pgm:r.pgm:none; do
        IFS=: read -r what left right calib <<<"$each"
        begin "$what of entry $place is missing"
        written="" lines=()
        while [ $entries -lt 18 ]; do
            case $entries in
            "$place") put "$left" "$right" "$calib" ;;
            2) two_sizes ;;
            10) no_json ;;
            11) put none none none ;;
            *) good ;;
            esac
        done
        least=$((place > 11 ? 11 : place)) fault="$what"
        [ $least = "$place" ] || fault=left
        for ((entry = 0; entry < least / 8 * 8; entry++)); do
            if [ $entry = 2 ]; then lines+=("$two_sizes_line"); else written+=" $entry"; fi
        done
        ends 4 "$written" "${lines[@]}" "sgm_series: entry $least: cannot read $fault"
    done
done
for what in folder loop; do
    begin "a $what as a picture"
    mkdir folder
    ln -s loop loop
    good 8
    put l.pgm $what -
    ends 4 "$(numbers 0 7)" 'sgm_series: entry 8: cannot read right'
done
if [ "$(id -u)" != 0 ]; then
    begin "a picture that may not be read"
    good 8
    cp l.pgm closed.pgm && chmod 000 closed.pgm
    put closed.pgm r.pgm -
    ends 4 "$(numbers 0 7)" 'sgm_series: entry 8: cannot read left'
fi
begin "missing and too long in one batch"
truncate -s 67108865 long.pgm
put long.pgm r.pgm -
put none r.pgm -
put long.pgm r.pgm -
ends 4 "" 'sgm_series: entry 1: cannot read left'

# Outputs that can't be written, in either batch: what comes before them is written and told.
for place in 0 3 7 8 12; do
    begin "entry $place writes into no folder"
    written="" lines=()
    while [ $entries -lt 14 ]; do
        if [ $entries = $place ]; then put l.pgm r.pgm - none/o; elif [ $entries = 2 ]; then two_sizes; else good; fi
    done
    for ((entry = 0; entry < place; entry++)); do
        if [ $entry = 2 ]; then lines+=("$two_sizes_line"); else written+=" $entry"; fi
    done
    ends 5 "$written" "${lines[@]}" "sgm_series: entry $place: cannot write disparity"
done
for each in disparity:pgm heights:asc report:csv; do
    IFS=: read -r what ending <<<"$each"
    for entry in 1 9; do
        begin "a folder as the $what of entry $entry"
        good $entry
        put l.pgm r.pgm c.json
        good 3
        mkdir "o$entry.$ending"
        ends 5 "$(numbers 0 $((entry - 1)))" "sgm_series: entry $entry: cannot write $what"
        begin "a full device for the $what of entry $entry"
        good $entry
        put l.pgm r.pgm c.json
        good 3
        ln -s /dev/full "o$entry.$ending"
        ends 5 "$(numbers 0 $((entry - 1)))" "sgm_series: entry $entry: cannot write $what"
    done
done
begin "an output that is not asked for can't be written"
mkdir o1.asc o1.csv
good 3
ends 0 "0 1 2"
begin "a refused entry writes into no folder"
put l.pgm s.pgm - none/o
good
ends 3 1 "$two_sizes_line" 'sgm_series: 1 entries refused'
begin "missing in a later batch than what can't be written"
good 3
put l.pgm r.pgm - none/o
good 5
put none none none
ends 5 "0 1 2" 'sgm_series: entry 3: cannot write disparity'
begin "missing in the batch of what can't be written"
good 3
put l.pgm r.pgm - none/o
put none none none
ends 4 "" 'sgm_series: entry 4: cannot read left'

# The streams.
for stream in closed /dev/full unread; do
    begin "standard output $stream"
    two_sizes
    good 10
    out=$stream ends 5 "" "$two_sizes_line" 'sgm_series: entry 1: cannot write summary'
    begin "standard output $stream and nothing to say"
    two_sizes
    out=$stream ends 3 "" "$two_sizes_line" 'sgm_series: 1 entries refused'
    begin "standard error $stream"
    good 3
    two_sizes
    good 5
    no_json
    good
    err=$stream ends 3 "$(numbers 0 2) $(numbers 4 8) 10"
    begin "standard error $stream and nothing to say"
    good 9
    err=$stream ends 0 "$(numbers 0 8)"
    begin "standard error $stream and a missing list"
    rm list.txt
    err=$stream ends 4 ""
done

# Full disks: each file takes a page. The folder has 9 before, the entries write three, one and one in turn.
mkdir "$work/disk"
if mount -t tmpfs -o size=4096 none "$work/disk" 2>"$work/mount"; then
    umount "$work/disk"
    for each in 9:0:disparity 10:0:heights 11:0:report 12:1:disparity 13:2:disparity 14:3:disparity 15:3:heights 17:4:disparity; do
        IFS=: read -r room entry what <<<"$each"
        begin "a full disk for the $what of entry $entry"
        good 6
        written=""
        [ "$entry" = 0 ] || written=$(numbers 0 $((entry - 1)))
        pages=$room ends 5 "$written" "sgm_series: entry $entry: cannot write $what"
    done
    begin "a disk with room"
    good 6
    pages=19 ends 0 "$(numbers 0 5)"
else
    echo "series_ends: no full disk was tried: $(cat "$work/mount")"
fi

# What follows asks for the program itself: the launcher is a script, and the reference never runs out of memory.
program=$SGM_SERIES
[ "$program" = "$top/sgm_series" ] && program=$top/crates/sgm_series_cli/out/sgm_series_cli

# within KILOBYTES FOLDER WORKERS: a run of the list in the folder with so much memory. Sets status.
within() { started "$2" prlimit --as=$((1024 * $1)) "$program" list.txt "workers=$3"; }

# large: an entry whose match takes 805 MB.
large() {
    { printf 'P5\n2048 2048\n255\n' && head -c 4194304 /dev/zero; } >large.pgm
    put large.pgm large.pgm -
}

# out_of_memory COUNT WRITTEN LINE..: runs the list where memory is short. All stands as after its first COUNT lines
# alone, of which those entries are WRITTEN.
out_of_memory() {
    local written=$2 wrong=() line workers
    head -n "$1" list.txt >first.txt
    shift 2
    line=$(printf '%s\n' "$@")$'\n'
    copy reference
    started "$folder/reference" "$here/reference_series.py" first.txt
    for workers in 1 2; do
        copy $workers
        within 400000 "$folder/$workers" $workers
        compare $workers 6 "$written" "$line"
    done
    told_of
}

# stands: whether the files are those of a series that wrote one output after the other and stopped: the first ones
# whole, then perhaps the beginning of one, then none; and standard output the summaries of the entries that are whole.
# `outputs` are the files of the reference in this order, and `owners` the entries that they are of.
stands() {
    local at=0 file summaries
    summaries=$(wc -l <"$folder/tried.out")
    head -n "$summaries" "$folder/reference.out" | cmp -s - "$folder/tried.out" || return
    while [ "$at" -lt ${#outputs[@]} ] && cmp -s "${outputs[at]}" "$folder/reference/${outputs[at]}"; do at=$((at + 1)); done
    if [ "$at" = ${#outputs[@]} ]; then
        [ $((entries - 1)) -le "$summaries" ]
        return
    fi
    # The file's entry has no summary, and each one before it has, but perhaps the last: its files may be whole.
    [ "${owners[at]}" -ge "$summaries" ] && [ "${owners[at]}" -le $((summaries + 1)) ] || return
    file=${outputs[at]}
    [ ! -e "$file" ] || cmp -s -n "$(stat -c %s "$file")" "$file" "$folder/reference/$file" || return
    for file in "${outputs[@]:at + 1}"; do [ ! -e "$file" ] || return; done
}

# Less and less memory, by steps of a tenth and, where little is left, of 128 kilobytes. Each run is done, or out of
# memory with its line; where the system can't even start the program without words, nothing is written.
less_memory() {
    local limit=2000000 workers entry ending fault="" outputs=() owners=() done=0 without=0 some=0 unbegun=0
    begin "less and less memory"
    # The ninth takes 3 MB more than the others.
    { printf 'P5\n120 120\n255\n' && head -c 14400 /dev/zero; } >large.pgm
    good 8
    put large.pgm large.pgm -
    good
    copy reference
    started "$folder/reference" "$here/reference_series.py" list.txt
    [ "$status" = 0 ] || fault="of the reference: status $status"
    for ((entry = 0; entry < entries; entry++)); do
        for ending in pgm asc csv; do
            [ -e "$folder/reference/o$entry.$ending" ] && outputs+=("o$entry.$ending") && owners+=("$entry")
        done
    done
    copy tried
    while [ $limit -gt 0 ] && [ -z "$fault" ]; do
        for workers in 1 2; do
            cd "$folder/tried" && rm -f "${outputs[@]}"
            within $limit "$folder/tried" $workers 2>/dev/null
            case $status in
            0)
                done=$((done + 1))
                [ ! -s "$folder/tried.err" ] && cmp -s "$folder/tried.out" "$folder/reference.out" && stands || fault=whole
                ;;
            6)
                without=$((without + 1))
                [ ! -s "$folder/tried.out" ] || some=$((some + 1))
                [ "$(cat "$folder/tried.err")" = 'sgm_series: no memory' ] && stands || fault=told
                ;;
            *)
                unbegun=$((unbegun + 1))
                (prlimit --as=$((1024 * limit)) "$program" >/dev/null 2>&1; exit $?) 2>/dev/null
                [ $? != 2 ] && [ ! -s "$folder/tried.out" ] && ! ls "${outputs[@]}" >/dev/null 2>&1 || fault="status $status"
                ;;
            esac
            [ -z "$fault" ] || break
        done
        if [ $limit -gt 16384 ]; then limit=$((limit * 9 / 10)); else limit=$((limit - 128)); fi
    done
    if [ -n "$fault" ] || [ $done = 0 ] || [ $without = 0 ]; then
        wrong+=("near $limit KB, workers=$workers: $fault; standard error has '$(cat "$folder/tried.err")'")
        wrong+=("$done done, $without without memory")
    fi
    told_of
    told+="; by memory $done done, $without out of it ($some of them after some entries), $unbegun not begun by the system"
}

if head -c 4 "$program" | grep -q ELF && has prlimit; then
    begin "no memory for an entry of the second batch"
    good 8
    large
    good
    out_of_memory 8 "$(numbers 0 7)" 'sgm_series: no memory'
    begin "no memory for an entry behind a refused one"
    good
    two_sizes
    large
    good 3
    out_of_memory 2 0 "$two_sizes_line" 'sgm_series: no memory'
    wrong=()
    less_memory
fi

echo "series_ends: $passed passed, $failed failed$told"
[ "$failed" = 0 ]
