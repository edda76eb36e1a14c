# What many.sh, many_ssh.sh and many_slurm.sh share: a small survey, what single matches make of it, and the commands of
# docs/MANY.md. They read it by `. "$(dirname "$0")/many_common.sh"`, which reads common.sh and sets
#
#   survey   a folder for pictures and their list, in the place of the page's /data/survey;
#   bin      a folder with the programs under their names.
# shellcheck shell=bash disable=SC2034,SC2317

# shellcheck source-path=SCRIPTDIR source=common.sh
. "$(dirname "${BASH_SOURCE[0]}")/common.sh"
survey=$work/survey bin=$work/bin
passed=0 failed=0 skipped=
page=$top/docs/MANY.md
left_of=$top/tools/series_left.py
# Where the page's commands are typed: the top of a repository.
mkdir -p "$bin" "$work/top"
ln -s "$top/tools" "$work/top/tools"
for folder in "$bin" "$work/top"; do
    ln -s "$SGM" "$folder/sgm"
    ln -s "$SGM_SERIES" "$folder/sgm_series"
done
# What parallel and sgm_series know of their surroundings.
export PARALLEL_HOME=$work/parallel
unset PARALLEL SERIES_LEFT CDPATH
# The entries that are refused, by number.
refused=(4 9)

# is WHAT FOUND WANTED
is() {
    if [ "$2" = "$3" ]; then
        passed=$((passed + 1))
    else
        failed=$((failed + 1))
        printf '%s: %s is\n%s\nnot\n%s\n' "$name" "$1" "$2" "$3"
    fi
}

end() {
    echo "$name: $passed passed, $failed failed${skipped:+; skipped: $skipped}"
    [ "$failed" = 0 ]
    exit
}

# The page's commands.

# commands SECTION NUMBER: the block of commands of that number, from 1, in that section, on this survey.
commands() {
    awk -v section="$1" -v number="$2" '
        /^## / { here = $2 == section "."; count = 0 }
        /^```/ { is_in = !is_in && $0 == "```sh"; if (is_in) count++; next }
        here && is_in && count == number' "$page" | sed "s#/data/survey#$survey#g"
}
# How many there are in that section.
blocks() { awk -v section="$1" '/^## / { here = $2 == section "." } here && $0 == "```sh" { count++ } END { print count + 0 }' "$page"; }

# typed SECTION NUMBER: runs the block as it stands, and sets status, out and err.
typed() {
    (cd "$work/top" && commands "$@" | bash) </dev/null >"$work/out" 2>"$work/err"
    status=$?
    out=$(cat "$work/out") err=$(cat "$work/err")
}

# began SECTION NUMBER: begins it in a session of its own, whose number is `session`.
began() {
    commands "$@" >"$work/typed"
    cd "$work/top" || exit 1
    setsid env --default-signal=INT bash "$work/typed" </dev/null >"$work/out" 2>"$work/err" &
    session=$!
    disown
    cd "$OLDPWD" || exit 1
}
in_session() { ps -o pid= -s "$session"; }
is_over() { [ -z "$(in_session)" ]; }
# Ends all that began in it, each by its number.
# shellcheck disable=SC2046
kill_session() {
    until is_over; do kill -KILL $(in_session) 2>/dev/null; done
}

# awaited WHAT COMMAND..: waits until the command ends with 0, at most two minutes.
awaited() {
    local what=$1 until=$((SECONDS + 120))
    shift
    until "$@" >/dev/null 2>&1; do
        if [ $SECONDS -ge $until ]; then
            is "whether $what, after two minutes" no yes
            return 1
        fi
        sleep 0.1
    done
}

# The survey.

# entry NUMBER: its line in the list. word NUMBER PLACE: one of its words, from 1.
entry() { sed -n "$(($1 + 1))p" "$survey/list"; }
entries() { for number; do entry "$number"; done; }
word() { entry "$1" | cut -d ' ' -f "$2"; }
is_refused() { [[ " ${refused[*]} " = *" $1 "* ]]; }

# Makes it, with its list by the page's commands, in which then some entries get other calibrations.
make_survey() {
    "$here/make_survey.py" "$survey" || exit 1
    typed 1 1
    is "what making the list says" "$status $out$err" "0 "
    count=$(wc -l <"$survey/list")
    is "the entries of the list" "$count" 12
    is "its last line" "$(entry 11)" "$survey/11_left.pgm $survey/11_right.pgm $survey/calibration.json $survey/11"
    sed -i -e '2s# [^ ]*json # - #' -e '7s# [^ ]*json # - #' -e '11s# [^ ]*json # - #' -e '8s#calibration.json#grid.json#' "$survey/list"
    mapfile -t all < <(seq 0 $((count - 1)))
}

# Matches each entry by a run of its own, and keeps what it makes and says in $work/single.
match_singly() {
    local number words wanted
    mkdir "$work/single"
    for number in "${all[@]}"; do
        read -ra words < <(entry "$number")
        "$SGM" match "${words[@]}" >"$work/single/$number.out" 2>"$work/single/$number.err" </dev/null
        wanted="$? $(wc -l <"$work/single/$number.out") $(wc -l <"$work/single/$number.err")"
        if is_refused "$number"; then is "how entry $number ends" "$wanted" "3 0 1"; else is "how entry $number ends" "$wanted" "0 1 0"; fi
    done
    mkdir "$work/single/files"
    outputs "$survey" | while read -r file; do mv "$survey/$file" "$work/single/files/"; done
    # Ten of the twelve, three of them without a calibration and one without regions.
    is "how many files they make" "$(find "$work/single/files" -type f | wc -l)" $((10 + 7 + 6))
}
# The outputs in a folder, by their names.
outputs() { (cd "$1" && find . -type f \( -name '*.pgm' -o -name '*.asc' -o -name '*.csv' \) ! -name '*_left.pgm' ! -name '*_right.pgm' | sort); }
clear() { outputs "$survey" | while read -r file; do rm "$survey/$file"; done; }

# summaries NUMBER..: what single matches of these entries print; lines the same of their refusals.
summaries() { for number; do cat "$work/single/$number.out"; done; }
lines() { for number; do cat "$work/single/$number.err"; done; }

# are_single WHAT: whether the survey's outputs are those of single matches, all of them and byte for byte.
are_single() {
    local file
    is "$1: the names of the outputs" "$(outputs "$survey")" "$(outputs "$work/single/files")"
    outputs "$work/single/files" | while read -r file; do cmp "$survey/$file" "$work/single/files/$file"; done >"$work/differ" 2>&1
    is "$1: what differs" "$(cat "$work/differ")" ""
}
# left_are WHAT NUMBER..: whether just these entries are left.
left_are() {
    local what=$1
    shift
    is "$what: what is left" "$("$left_of" "$survey/list" 2>&1)" "$(entries "$@")"
}
# have_come NUMBER..: whether all of them are done.
have_come() {
    local left
    left=$("$left_of" "$survey/list") || return 1
    for number; do ! grep -qxF -- "$(entry "$number")" <<<"$left" || return 1; done
}

# hold NUMBER [FOLDER]: has what reads the entry's left picture, in the survey or in another folder, wait; go NUMBER [FOLDER]
# lets it be read again, though not by what waits.
hold() {
    local file
    file=${2:-$survey}/$(basename "$(word "$1" 1)")
    mv "$file" "$work/held.$(basename "$file")" && mkfifo "$file"
}
go() {
    local file
    file=${2:-$survey}/$(basename "$(word "$1" 1)")
    rm "$file" && mv "$work/held.$(basename "$file")" "$file"
}
# cut NUMBER ENDING: takes the end of that output away, and the outputs after it, as an interrupted run leaves them.
cut_off() {
    local ending out
    out=$(word "$1" 4)
    truncate -s -1 "$out$2"
    for ending in .asc .csv; do [[ $ending > $2 || $2 = .pgm ]] && rm -f "$out$ending"; done
}
