#!/usr/bin/env bash
# Tries ./sgm and ./sgm_series themselves: the answers that they give without the program, when they build and what
# they tell of that, and what they hand on. Each case has a copy of both in a repository of its own, with a toolchain
# that is made up: its commands note how they were called and say what they would of each crate, and the program that
# is linked notes its words. So nothing is proved, and the variables SGM and SGM_SERIES have no part.
#
#     tests/launcher.sh
set -u
# shellcheck source-path=SCRIPTDIR source=common.sh
. "$(dirname "$0")/common.sh"
passed=0 failed=0
unset GLIBC_TUNABLES CDPATH
# What a build leaves behind would be seen here.
export TMPDIR=$work/temporary
mkdir "$TMPDIR"
# What the launcher sets.
tunables=glibc.malloc.hugetlb=1:glibc.malloc.mmap_threshold=1073741824
tunables=$tunables:glibc.malloc.top_pad=67108864
# The commands that the launcher and the made-up rt use, and git where it is there: a folder without another rt.
plain=$work/commands
mkdir "$plain"
for command in bash basename cat cp dirname env find git grep mv realpath rm sed sh sleep touch; do
    has "$command" && ln -s "$(command -v "$command")" "$plain/"
done
# (what stands on the PATH may be a script that looks for it)
ln -s "$(python3 -c 'import sys; print(sys.executable)')" "$plain/python3"

# The made-up toolchain, one script under the names of its commands. What it says is asked for by files of the
# repository: `broken` has the names of crates that aren't proved, or `rt` where none is looked at, or `build`, `link` or
# `trial` for what fails then, or `tests` where those of the crates do; where `waits` is there, the second crate's proof starts a process that goes on until it is
# ended, writes its number to the file `child`, and waits, both of them deaf to SIGTERM where it says so; where `beside`
# is there another rt works; and where `changes` is there a source changes while the first crate is proved. A crate that
# it has proved is kept the next time.
made_up_toolchain() {
    cat <<MADE
#!/usr/bin/env bash
repository='$repository' made='$work/made'
MADE
    cat <<'MADE'
tool=$(basename "$0") status=0
echo "in ${PWD/#$TMPDIR\/*/a folder}: $tool $*" >>"$repository/calls"
is_broken() { grep -qsx "$1" "$repository/broken"; }
prove() {
    if [ "$1" = middle ] && [ -e "$repository/waits" ]; then
        grep -qx deaf "$repository/waits" && trap '' TERM
        sleep 600 &
        echo $$ >"$repository/rt"
        echo $! >"$repository/child"
        wait
    fi
    [ -e "$repository/proved.$1" ] && echo "rt: $1 is kept: it was proved before" && return
    [ -e "$repository/beside" ] && echo "rt: $1: another run on this machine is proving the same; waiting for it"
    [ -e "$repository/changes" ] && rm "$repository/changes" && touch "$repository/crates/low/src/lib.rt"
    echo "== $1"
    for number in {1..30}; do echo "proving $1, line $number"; done
    if is_broken "$1"; then
        echo "$1/src/lib.rt:1: error: $(printf '%.0s-' {1..600})"
        # What is well stands behind it and isn't shown.
        for number in {1..30}; do echo "fn $1::number_$number: proved"; done
        printf '%s\n' "fn $1::other: not proved" "statements std: modules loaded=2 checked=1"
        echo "library base: modules loaded=2 checked=1"
        echo "rt: $1 NOT PROVED"
        status=1
    else
        : >"$repository/proved.$1"
        printf '%s\n' "logic=proved functions=1" "rt: $1 proved"
    fi
}
case $tool:$1 in
rt:doc) echo "$repository/page.md" ;;
rt:ci)
    echo "rt: words" >&2
    is_broken rt && echo "low/src/lib.rt:1: no such word" && exit 1
    for each in $(sed 's/[: ].*//' crates.txt); do
        [ -e "crates/$each/src" ] || exit 3
        if [ "$status" = 0 ]; then prove "$each"; else echo "rt: $each NOT PROVED: its library failed"; fi
    done
    is_broken tests && status=1
    echo "so many passed"
    exit "$status"
    ;;
rattle:build)
    echo "said by rattle"
    is_broken build && echo "no building" && exit 5
    ;;
rattle-link:*)
    is_broken link && echo "no linking" && exit 6
    while [ "$1" != -o ]; do shift; done
    cp "$made" "$2"
    ;;
esac
exit 0
MADE
}

# A new repository in a folder of that name, which becomes the folder at hand. The program that is tried, once made,
# prints its words in brackets, where it runs and its GLIBC_TUNABLES, and ends with the status 7; where it is tried
# before it is put in its place, it says so and ends well.
begin() {
    case="$launched: $1"
    repository=$work/$launched/$1
    mkdir -p "$repository"/{bin,crates/{sgm,sgm_series}_cli/{src,out},crates/low/{src,specs,proofs,must-fail}} || exit 1
    mkdir -p "$repository"/{crates/middle/src,docs,packaging} || exit 1
    cp "$top"/{sgm,sgm_series} "$repository/"
    cp "$top"/packaging/{launcher.sh,first_build.py,help.txt,help_sgm_series.txt} "$repository/packaging/"
    printf '# crate seconds\nlow 60\nmiddle 130 # both programs\n' >"$repository/packaging/build_times.txt"
    echo 7.8.9 >"$repository/VERSION"
    printf '%s\n' low: 'middle: low itoa' beside: 'sgm_cli: middle' 'sgm_series_cli: low middle' >"$repository/crates.txt"
    echo "Handles allowed: none." >"$repository/HANDLES"
    touch "$repository"/crates/{{sgm,sgm_series}_cli/src/main.rt,low/src/lib.rt,low/specs/Lib.antt}
    cat >"$work/made" <<PROGRAM
#!/usr/bin/env bash
repository='$repository'
PROGRAM
    cat >>"$work/made" <<'PROGRAM'
[[ $0 = */out/* ]] || { echo "tried: $*"; ! grep -qsx trial "$repository/broken"; exit; }
printf '[%s]' "$@"
printf ' in %s with %s\n' "$PWD" "${GLIBC_TUNABLES-none}"
sed -n 's/^flags:.*\(.\)$/\1/p' /proc/$$/fdinfo/[12] >"$(dirname "$0")/streams"
exit 7
PROGRAM
    made_up_toolchain >"$repository/bin/rt"
    chmod +x "$work/made" "$repository/bin/rt"
    ln -s rt "$repository/bin/rattle"
    ln -s rt "$repository/bin/rattle-link"
    path=$repository/bin:$plain
    cd "$repository" || exit 1
}

# started WORD..: runs the launcher, and sets status, out and err.
started() {
    PATH=$path "${launcher-$repository/$launched}" "$@" >"$work/out" 2>"$work/err"
    status=$?
    out=$(cat "$work/out") err=$(cat "$work/err")
}

# is WHAT FOUND WANTED
is() {
    if [ "$2" = "$3" ]; then
        passed=$((passed + 1))
    else
        failed=$((failed + 1))
        printf 'launcher: %s: %s is\n%s\nnot\n%s\n' "$case" "$1" "$2" "$3"
    fi
}

# has_line WHAT TEXT LINE: whether a line of the text begins so.
has_line() {
    grep -q -- "^$3" <<<"$2"
    is "$1: a line '$3'" $? 0
}

# What the launcher says of a first build where there is no terminal, by the seconds of the table: 60, 130 and, for the
# building of the program, which has no line there, their mean. Once one crate has ended at once, all will.
plain_progress() {
    cat <<TEXT
$launched: first build: this proves 3 crates on N processors, about 5 minutes where none is proved ($crate/out/build.txt);
$launched: later starts take no time until a source changes
$launched: 1 of 3 crates checked (low), 0:00 gone, some seconds left
$launched: 2 of 3 crates checked (middle), 0:00 gone, some seconds left
$launched: 3 of 3 crates checked, 0:00 gone, the program is built
TEXT
}

# What the launcher said, without the number of processors and the seconds that differ from run to run.
said() { sed 's/ on [0-9]* processors\{0,1\}/ on N processors/; s/, 0:0[0-9] gone/, 0:00 gone/' <<<"$1"; }

# How often it was built, or tried to be.
calls() { if [ -e "$repository/calls" ]; then grep -c ': rt ci$' "$repository/calls"; else echo 0; fi; }
# Makes the files at hand older than what is touched next, whatever the file system's clock can tell apart.
age() { find "$repository" -exec touch -h -d '1 hour ago' {} +; }

# Whether that process goes on: one that has ended and that nobody asked for has a state too.
lives() { grep -qs '^State:[[:space:]]*[^ZX[:space:]]' "/proc/$1/status" || return 1; }

# Waits until the made-up check waits.
until_it_waits() {
    for _ in {1..200}; do
        [ -s "$repository/child" ] && return
        sleep 0.05
    done
}

# What stands after a signal: WANTED is the status.
was_interrupted() {
    is status "$status" "$1"
    is "whether the check's process goes on (1: no)" "$(lives "$(cat child)"; echo $?)" 1
    is "whether rt goes on (1: no)" "$(lives "$(cat rt)"; echo $?)" 1
    is "whether there is a program (1: no)" "$([ -e "$program" ]; echo $?)" 1
    rm waits child
    started demo 0
    is "status of the next start" "$status" 7
    # What was proved before tells nothing of the time that the rest takes.
    is "how it goes on" "$(said "$err")" "$(plain_progress | sed 's/\((low),.*\)some seconds/\1about 4 minutes/')"
    is "lines of the crate that was proved before" "$(grep -c "^proving low" "$crate/out/build.txt")" 0
    is "lines of the one that wasn't" "$(grep -c "^proving middle" "$crate/out/build.txt")" 30
    is "what is left behind" "$(ls -A "$TMPDIR")" ""
}

# A first build is stopped by a signal to the launcher, and by Ctrl-C.
try_interrupted() {
    local signal number
    for signal in TERM HUP; do
        begin "stopped by $signal"
        if [ $signal = HUP ]; then echo deaf >waits; else touch waits; fi
        PATH=$path "./$launched" demo 0 >"$work/out" 2>"$work/err" &
        until_it_waits
        kill "-$signal" "$!"
        { wait "$!"; } 2>/dev/null
        status=$? out=$(cat "$work/out") err=$(cat "$work/err")
        is "standard output" "$out" ""
        is "standard error" "$(said "$err")" "$(plain_progress | head -n 3)
$launched: stopped: the next start takes over the crates that are kept"
        number=$(kill -l "$signal")
        was_interrupted $((128 + number))
    done
    # What waits for the build is killed: nobody is left to say so, and the build ends by itself.
    begin killed
    touch waits
    PATH=$path "./$launched" demo 0 >"$work/out" 2>"$work/err" &
    until_it_waits
    kill -KILL "$!"
    { wait "$!"; } 2>/dev/null
    status=$?
    for _ in {1..100}; do lives "$(cat child)" && sleep 0.05; done
    was_interrupted 137
    has script || return
    begin "stopped by Ctrl-C"
    touch waits
    on_terminal 120 $'\003'
    is "the last line" "$(tail -n 1 <<<"$out")" "$launched: stopped: the next start takes over the crates that are kept"
    is "the line before" "$(said "$(tail -n 2 <<<"$out" | head -n 1)")" \
        "$launched: 1 of 3 crates checked, 0:00 gone, some seconds left"
    was_interrupted 130
}

# on_terminal COLUMNS KEYS: starts the launcher on a terminal of so many columns, which gets the keys once the made-up
# check waits; sets status, and out to what it shows, with what is rewritten line by line.
on_terminal() {
    { if [ -n "$2" ]; then until_it_waits && printf '%s' "$2"; fi; } |
        script -qec "stty cols $1; PATH='$path' ./$launched demo 0" /dev/null >"$work/out"
    status=${PIPESTATUS[1]}
    out=$(sed 's/\r*$//; s/\r/\n/g; s/\x1b\[K//g; s/\^C//g' "$work/out")
}

try_terminal() {
    has script || return
    begin terminal
    on_terminal 120 ''
    is status "$status" 7
    is "the first lines" "$(said "$(head -n 2 <<<"$out")")" "$(plain_progress | head -n 2)"
    is "the last lines" "$(said "$(tail -n 2 <<<"$out")")" "$(plain_progress | tail -n 1)
[demo][0] in $repository with $tunables"
    is "the lines that stay" "$(said "$(sed -n 's/\r*$//; /\r/d; p' "$work/out")")" "$(plain_progress | head -n 2)
[demo][0] in $repository with $tunables"
    begin "a narrow terminal"
    on_terminal 30 ''
    is "the last line" "$(said "$(tail -n 2 <<<"$out" | head -n 1)")" "$(plain_progress | tail -n 1 | cut -c1-29)"
}

# The processors that it may run on.
try_processors() {
    local number some
    has taskset || return
    for number in 1 2; do
        [ "$(nproc)" -ge $number ] || continue
        begin "$number processors"
        some=$(python3 -c "import os; print(*sorted(os.sched_getaffinity(0))[:$number], sep=',')")
        PATH=$path "$(command -v taskset)" -c "$some" "./$launched" demo 0 >"$work/out" 2>"$work/err"
        is status $? 7
        is "how many it names" "$(sed -n 's/.* on \([0-9]* processors\{0,1\}\),.*/\1/p' "$work/err")" \
            "$(echo "1 processor;2 processors" | cut -d';' -f$number)"
    done
}

# Everything that is tried of one launcher: its name, the crate of its program, the words with which a build starts it,
# and the first line of its help.
try_launcher() {
    launched=$1 crate=crates/$2 program=crates/$2/out/$2 trial=$3 usage=$4

    begin help
    started --help
    is status "$status" 0
    is "standard error" "$err" ""
    is "first line" "$(head -n 1 <<<"$out")" "$usage"
    help=$out
    started -h
    is "status of -h" "$status" 0
    is "what -h prints" "$out" "$help"
    is "the man page that it names" "$(grep -c "man page $launched(1)" <<<"$out")" 1
    is "builds" "$(calls)" 0

    begin version
    started --version
    is status "$status" 0
    is "standard error" "$err" ""
    is version "$out" "$launched 7.8.9, commit unknown, calibration versions 1, 2 and 3"
    if has git; then
        git -c init.defaultBranch=one init -q . && git add "$launched" &&
            git -c user.name=a -c user.email=a@b commit -qm one || exit 1
        started --version
        is "version of a commit" "$out" "$launched 7.8.9, commit $(git rev-parse --short HEAD), calibration versions 1, 2 and 3"
        echo >>"$launched"
        started --version
        is "version after a change" "$out" "$launched 7.8.9, commit $(git rev-parse --short HEAD)-dirty, calibration versions 1, 2 and 3"
    fi
    is "builds" "$(calls)" 0

    begin build
    started match 'a b' '' $'c\nd' '*'
    is status "$status" 7
    is "the program's words" "$out" "[match][a b][][c
d][*] in $repository with $tunables"
    is "standard error" "$(said "$err")" "$(plain_progress)"
    is "how the toolchain was called" "$(sed 's/ --\(crate-name\|target\) .*//' calls)" "in a folder: rt ci
in $repository: rt doc
in $repository/$crate: rattle build
in $repository/$crate: rattle-link"
    is "the lines of the proof in the file" "$(grep -c "^proving middle, line" "$crate/out/build.txt")" 30
    is "the last line of the file" "$(tail -n 1 "$crate/out/build.txt")" "tried: $trial"
    is "what is left behind" "$(ls -A "$TMPDIR")" ""
    started
    is "status without words" "$status" 7
    is "standard error of a later start" "$err" ""
    is "the program without words" "$out" "[] in $repository with $tunables"
    is "builds" "$(calls)" 1

    # One source after the other becomes newer than the program.
    count=1
    for source in $crate/src/main.rt crates/low/src/lib.rt crates/low/specs/Lib.antt crates/low/proofs/New.antt \
        crates.txt; do
        age
        touch "$source"
        started demo 1
        count=$((count + 1))
        is "builds after a change of $source" "$(calls)" $count
        has_line "standard error" "$err" "$launched: a source is newer than the program: proving and building what has changed"
        is "the program's words" "$out" "[demo][1] in $repository with $tunables"
    done
    age
    touch "$program"
    sleep 0.01
    rm crates/low/proofs/New.antt
    started demo 1
    is "builds after a source is taken out" "$(calls)" $((count + 1))
    age
    touch docs/page.md crates/low/must-fail/one.edit README.md
    started demo 1
    is "builds after a change of a page and of an edit" "$(calls)" $((count + 1))
    # A build that makes the same program.
    age
    touch crates.txt
    started demo 1
    started demo 1
    is "builds after one that changed nothing" "$(calls)" $((count + 2))
    # A source that changes while it is built was copied before.
    age
    rm proved.low
    touch crates.txt changes
    started demo 1
    started demo 1
    started demo 1
    is "builds where a source changed meanwhile" "$(calls)" $((count + 4))

    # The names of the sources that it keeps: of what came since, and where the program was made by someone else.
    count=$(calls)
    started demo 1
    echo "fn new() {}" >crates/low/src/new.rt
    started demo 1
    is "builds after a source came" "$(calls)" $((count + 1))
    age
    touch "$program"
    started demo 1
    started demo 1
    is "builds where nothing changed" "$(calls)" $((count + 1))
    ls "$crate"/out/sources.* >/dev/null
    is "whether it has kept the names (0: yes)" $? 0
    sleep 0.01
    echo "fn newer() {}" >>crates/low/src/new.rt
    started demo 1
    is "builds after that source changed" "$(calls)" $((count + 2))
    echo >crates/low/proofs/Other.antt
    age
    touch "$program"
    touch -d '30 minutes ago' "$crate"/out/sources.*
    sleep 0.01
    echo >>crates/low/proofs/Other.antt
    started demo 1
    is "builds after a change of a source that came while another built" "$(calls)" $((count + 3))
    age
    touch "$program"
    started demo 1
    mkdir "$crate"/specs
    sleep 0.01
    echo >"$crate"/specs/Lib.antt
    started demo 1
    is "builds after a folder of sources came" "$(calls)" $((count + 4))
    age
    touch "$program"
    started demo 1
    rm -r "$crate"/specs
    started demo 1
    started demo 1
    is "builds after one is taken out" "$(calls)" $((count + 5))

    begin unbuilt
    echo middle >broken
    started demo 0
    is "status where it can't be built" "$status" 1
    is "standard output" "$out" ""
    is "standard error" "$(said "$err")" "$(plain_progress | head -n 3)
$launched: not proved: middle. What was said last, of which $crate/out/build.txt has all:
$(printf 'proving middle, line %s\n' {13..30})
$(printf 'middle/src/lib.rt:1: error: %s' "$(printf '%.0s-' {1..600})" | cut -c1-400) ..
fn middle::other: not proved
$launched: can't be built: see the messages above"
    is "the lines of the proof in the file" "$(grep -c "^proving middle, line" "$crate/out/build.txt")" 30
    is "whether there is a program (1: no)" "$([ -e "$program" ]; echo $?)" 1
    rm broken
    started demo 0
    is "status once it is mended" "$status" 7
    path=$plain
    age
    touch crates.txt
    started demo 0
    is "status without rt" "$status" 1
    is "standard output" "$out" ""
    is "standard error" "$err" "$launched: can't be built: rt, the toolchain's command, isn't on the PATH"

    begin "unbuilt for another reason"
    echo rt >broken
    started demo 0
    is "status where rt ends before any crate" "$status" 1
    is "standard error" "$(said "$err" | tail -n +3)" \
        "$launched: \`rt ci\` ended with 1. What was said last, of which $crate/out/build.txt has all:
rt: words
low/src/lib.rt:1: no such word
$launched: can't be built: see the messages above"
    echo build >broken
    started demo 0
    is "status where the program can't be built" "$status" 1
    is "standard error" "$(said "$err" | tail -n 4)" \
        "$launched: not built: \`rattle build ..\` ended with 5. What was said last, of which $crate/out/build.txt has all:
said by rattle
no building
$launched: can't be built: see the messages above"
    echo link >broken
    started demo 0
    is "status where it can't be linked" "$status" 1
    has_line "standard error" "$err" "$launched: not built: \`rattle-link --target ..\` ended with 6\."
    echo trial >broken
    started demo 0
    is "status where it can't be started" "$status" 1
    has_line "standard error" "$err" "$launched: not built: \`program ${trial%% *} ..\` ended with 1\."
    is "whether there is a program (1: no)" "$([ -e "$program" ]; echo $?)" 1

    begin "beside another rt"
    touch beside
    started demo 0
    is status "$status" 7
    has_line "standard error" "$err" "$launched: rt: low: another run on this machine is proving the same; waiting for it"

    begin "tests that fail"
    echo tests >broken
    started demo 0
    is "status where all crates are proved" "$status" 7

    # A failed build after a good one: the old program isn't started.
    begin stale
    started demo 0
    age
    touch crates.txt
    echo low >broken
    rm proved.low
    started demo 0
    is status "$status" 1
    is "standard output" "$out" ""

    try_interrupted
    try_terminal
    try_processors

    begin "a folder with spaces"
    started demo 0
    is "status" "$status" 7
    is "the program's words" "$out" "[demo][0] in $repository with $tunables"
    mkdir -p "$work/$launched/links/else where"
    ln -s "$repository/$launched" "$work/$launched/links/one"
    ln -s ../one "$work/$launched/links/else where/two"
    cd "$work/$launched/links/else where" || exit 1
    for launcher in "$work/$launched/links/one" "./two" "../one"; do
        started demo 2
        is "what $launcher starts" "$out" "[demo][2] in $PWD with $tunables"
    done
    PATH="$work/$launched/links:$path" one demo 3 >"$work/out"
    is "what one on the PATH starts" "$(cat "$work/out")" "[demo][3] in $PWD with $tunables"
    unset launcher
    is "builds" "$(calls)" 1

    begin tunables
    started demo 0
    for pair in "" glibc.malloc.check=3 glibc.malloc.hugetlb=0 glibc.malloc.hugetlb=2 \
        glibc.malloc.check=3:glibc.malloc.hugetlb=0 glibc.malloc.hugetlb=0:glibc.malloc.check=3 \
        glibc.malloc.mmap_threshold=4096 glibc.malloc.top_pad=4096; do
        case $pair in
        "") wanted=$tunables ;;
        *hugetlb*) wanted=$pair ;;
        *mmap_threshold*) wanted=$pair:${tunables/glibc.malloc.mmap_threshold=1073741824:/} ;;
        *top_pad*) wanted=$pair:${tunables/:glibc.malloc.top_pad=67108864/} ;;
        *) wanted=$pair:$tunables ;;
        esac
        GLIBC_TUNABLES=$pair started demo 0
        is "with '$pair'" "$out" "[demo][0] in $repository with $wanted"
    done

    # In the place of a stream that was closed stands something that is open for reading alone: its mode is 0.
    begin closed
    started demo 0
    PATH=$path "./$launched" demo 0 >&- 2>"$work/err"
    is "status with a closed standard output" $? 7
    grep -q "write error" "$work/err"
    is "the program's fault" $? 0
    is "the mode of what stands in its place" "$(head -n 1 "$crate"/out/streams)" 0
    PATH=$path "./$launched" demo 0 2>&- >"$work/out"
    is "standard output beside a closed standard error" "$(cat "$work/out")" \
        "[demo][0] in $repository with $tunables"
    is "the modes of both streams" "$(tr '\n' ' ' <"$crate"/out/streams)" "1 0 "
}

try_launcher sgm sgm_cli "demo 0" "sgm match LEFT RIGHT CALIB OUT [strips=N] [workers=N] [peak=N] [fill=N]"
try_launcher sgm_series sgm_series_cli /dev/null "sgm_series LIST [workers=N]"

# One program's build is no other's.
launched=sgm_series
begin "beside the other"
started list
is "builds of sgm_series" "$(calls)" 1
launched=sgm
started demo 0
is "builds of both" "$(calls)" 2
for launched in sgm sgm_series; do started one; done
is "builds after later starts" "$(calls)" 2
is "what both are built of" "$(sed -n 's/^in \(.*\): rattle build.*/\1/p' calls)" "$repository/crates/sgm_series_cli
$repository/crates/sgm_cli"

echo "launcher: $passed passed, $failed failed"
[ "$failed" = 0 ]
