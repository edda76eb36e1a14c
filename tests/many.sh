#!/usr/bin/env bash
# Runs the commands of docs/MANY.md for one machine, as they stand there, over a small survey of twelve pairs, two of which
# are refused: its list, sgm_series, going on, and GNU parallel. What comes of it is compared with single matches, byte for
# byte; runs are broken off in between and go on.
#
#     tests/many.sh
#
# The programs are those that the variables SGM and SGM_SERIES name (./sgm and ./sgm_series of this repository without
# them); where there is no sgm_series, what needs it is skipped. All is skipped without GNU parallel (Debian: parallel).
set -u
# shellcheck source-path=SCRIPTDIR source=many_common.sh
. "$(dirname "$0")/many_common.sh"
has parallel || skip "GNU parallel" parallel
need_program
[ ! -x "$SGM_SERIES" ] || need_series
make_survey
match_singly
is "the page's blocks of commands" "$(blocks 1) $(blocks 2) $(blocks 3) $(blocks 4) $(blocks 7)" "1 2 1 1 2"
good=()
for number in "${all[@]}"; do is_refused "$number" || good+=("$number"); done
left_are "before anything" "${all[@]}"

# GNU parallel.

typed 4 1
is "status of parallel" "$status" ${#refused[@]}
is "the summaries of parallel" "$out" "$(summaries "${all[@]}")"
is "the lines of parallel" "$err" "$(lines "${all[@]}")"
are_single "parallel"
is "the status of each entry in its table" "$(sed 1d "$survey/log" | sort -n | cut -f 7 | tr '\n' ' ')" "0 0 0 0 3 0 0 0 0 3 0 0 "
left_are "parallel" "${refused[@]}"
typed 4 1
is "what parallel prints where the refused ones are left" "$status $out$err" "${#refused[@]} $(lines "${all[@]}")"

# The first entry ends last, and its summary comes first.
clear
hold 0
began 4 1
awaited "all other entries have come" have_come 1 2 3 5 6 7 8 10 11
cat "$work/held.00_left.pgm" >"$survey/00_left.pgm"
awaited "the first one has come" is_over || kill_session
go 0
is "the summaries where the first entry ends last" "$(cat "$work/out")" "$(summaries "${all[@]}")"
are_single "the first entry last"

# It is broken off while entry 5 waits, all of it at once, and when the matches of two others had just begun.
clear
hold 5
began 4 1
awaited "all entries but one have come" have_come 0 1 2 3 6 7 8 10 11
kill_session
go 5
cut_off 2 .asc
cut_off 6 .pgm
left_are "parallel, broken off" 2 4 5 6 9
typed 4 1
is "the status of going on" "$status" ${#refused[@]}
is "the summaries of going on" "$out" "$(summaries 2 5 6)"
is "the lines of going on" "$err" "$(lines "${refused[@]}")"
are_single "parallel, gone on"

# Ctrl-C goes to all of the shell's foreground.
clear
hold 5
began 4 1
awaited "entries have come" have_come 0 1 2 3
kill -INT -- "-$session"
awaited "Ctrl-C has ended all" is_over || kill_session
go 5
typed 4 1
are_single "parallel, after Ctrl-C"

# An absent input, which is no end for parallel.
mv "$survey/00_left.pgm" "$work/away"
rm "$survey/00.pgm" "$survey/03.pgm"
typed 4 1
is "parallel's status and lines where an input is absent" "$status $err" "3 sgm: cannot read left
$(lines "${refused[@]}")"
is "what it then prints" "$out" "$(summaries 3)"
mv "$work/away" "$survey/00_left.pgm"
left_are "an absent input" 0 4 9

# A list that is refused: nothing is matched, and its line is said.
clear
cp "$survey/list" "$work/list"
entry 0 >>"$survey/list"
typed 4 1
is "what is said of a list that clashes" "$out$err" "series_left: entry 12 clashes"
is "what is made by a list that clashes" "$(outputs "$survey")" ""
cp "$work/list" "$survey/list"

# sgm_series.

if [ ! -x "$SGM_SERIES" ]; then
    skipped="sgm_series, since there is no $SGM_SERIES"
    end
fi
clear
typed 2 1
is "the status of sgm_series" "$status" 3
is "its summaries" "$(cat "$survey/summaries")" "$(summaries "${all[@]}")"
is "its lines" "$(cat "$survey/lines")" "$(lines "${all[@]}")
sgm_series: ${#refused[@]} entries refused"
are_single "sgm_series"
left_are "sgm_series" "${refused[@]}"
typed 2 2
is "the refused entries beside their lines" "$out" "$(for number in "${refused[@]}"; do echo "$(entry "$number") $(lines "$number")"; done)
 sgm_series: ${#refused[@]} entries refused"

# It is broken off at the second eight, whose inputs it can't fetch, and an output of the first is cut within a number.
clear
hold 10
began 2 1
awaited "the first eight have come" have_come 0 1 2 3 5 6 7
kill_session
go 10
cut_off 3 .csv
left_are "sgm_series, broken off" 3 4 8 9 10 11
typed 3 1
is "the status of going on by sgm_series" "$status" 3
is "its summaries then" "$out" "$(summaries 3 8 10 11)"
is "its lines then" "$(tail -n 4 <<<"$err")" "series_left: 6 of 12 entries are left
$(lines "${refused[@]}")
sgm_series: ${#refused[@]} entries refused"
are_single "sgm_series, gone on"

# What is refused is mended.
cp "$survey/03_right.pgm" "$work/mended"
mv "$survey/04_left.pgm" "$survey/04_right.pgm" "$survey/09_left.pgm" "$survey/09_right.pgm" "$work/"
for file in 04_left 04_right 09_left 09_right; do cp "$work/mended" "$survey/$file.pgm"; done
typed 3 1
is "the status once all is mended" "$status" 0
left_are "all is mended"

# All grids in one. Ten entries have a calibration with a grid.
if has_merge; then
    printf '%s\n' "$survey"/*.asc >"$work/grids"
    is "how many grids there are" "$(wc -l <"$work/grids")" 9
    merged=$("$SGM" merge "$work/grids" "$survey/calibration.json" "$work/merged")
    typed 7 1
    is "the merge" "$status $out$err" "0 $merged"
    is "its list" "$(sort "$survey/heights")" "$(sort "$work/grids")"
    for ending in asc csv; do is "its OUT.$ending" "$(cat "$survey/site.$ending")" "$(cat "$work/merged.$ending")"; done
    typed 7 2
    is "how the check ends" "$status $err" "0 merge_check: 0 of 9 grids are off"
    rm "$survey"/site.* "$survey/heights" "$survey/check.png" "$survey/00.csv"
    typed 7 1
    is "a merge before the series is whole" "$status $out$err" "3 series_left: 1 of 12 entries are left"
    is "whether it was begun" "$(ls "$survey"/site.* 2>/dev/null)" ""
    typed 3 1
fi
is "the absent input's line" "$(rm "$survey/03.pgm" "$survey/03_left.pgm"; typed 3 1; tail -n 1 <<<"$status $err")" \
    "sgm_series: entry 0: cannot read left"
end
