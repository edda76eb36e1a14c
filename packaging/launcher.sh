# What ./sgm and ./sgm_series share: each starts its program in the folder where it is called, with the words it is
# given, and ends with the program's status. They read it by `. "$top/packaging/launcher.sh"`, having set
#
#   top      the repository's top;
#   name     the program's name, with which its messages begin;
#   crate    the crate that it is made of;
#   help     the text of --help;
#   trial    the words of a run that shows that what was built runs, split at spaces.
#
# The program is built first where a source is newer than it; building proves the crates that it stands on
# (packaging/first_build.py). Nothing but the program writes to standard output, except for --help (or -h) and
# --version, which are answered here. tests/launcher.sh tries it.
#
# What is installed starts by packaging/launcher.c, which does the same but for building.
# shellcheck shell=sh
# shellcheck disable=SC2154
# Each command or subshell that is called here takes a millisecond or two of every start.
out=crates/$crate/out
program=$top/$out/$crate

version() {
    read -r number <"$top/VERSION" || number=unknown
    commit=$(git -C "$top" describe --always --dirty --exclude='*' 2>/dev/null) || commit=unknown
    echo "$name $number, commit $commit, calibration versions 1, 2 and 3"
}

# Whether the program is there and newer than every source, and than each folder of sources, which
# changes where a file comes or is taken out.
is_built() {
    [ -x "$program" ] || return 1
    newer=$(CDPATH='' cd "$top" && newer_source 2>&1)
    [ -z "$newer" ]
}

# The first source that is newer than the program, in the folder at hand, or what else asks for a build.
# Asking for each file by its name takes half the time of walking through six hundred folders. So where
# nothing is newer the names are kept, in a file that says the number of places, and used as long as they
# are newer than the program.
# shellcheck disable=SC2185,SC3013
newer_source() {
    set -- crates/*/src crates/*/specs crates/*/proofs crates.txt
    for names in "$out"/sources.*; do
        [ "$names" -nt "$out/$crate" ] || continue
        if [ "$names" = "$out/sources.$#" ]; then
            find -files0-from "$names" -maxdepth 0 -newer "$out/$crate" -print -quit
        else
            echo "a place of sources has come or gone"
        fi
        return
    done
    find "$@" -newer "$out/$crate" -print -quit 2>/dev/null | grep . || keep_names "$out/sources.$#" "$@" 2>/dev/null
}

# keep_names FILE PLACE..: keeps none where find doesn't know such a file.
# shellcheck disable=SC2185
keep_names() {
    rm -f "${1%.*}".*
    kept=$1 new=${1%/*}/new.$$
    shift
    find "$@" -print0 >"$new" && find -files0-from "$new" -maxdepth 0 -quit && mv "$new" "$kept"
    rm -f "$new"
}

# The best of the toolchain's processor names that this processor can run.
cpu_flags() {
    flags=" $(grep -m1 '^flags' /proc/cpuinfo 2>/dev/null) "
    for flag in avx avx2 bmi1 bmi2 f16c fma abm movbe; do
        case $flags in *" $flag "*) ;; *) return ;; esac
    done
    echo --cpu x86-64-v3
}

# Proves and builds, by a script which tells its progress. Where a signal ends this one, it ends that too and waits for
# it, and then ends as the signal has it: a loop around this start ends with it.
build() {
    if ! command -v rt >/dev/null; then
        echo "$name: can't be built: rt, the toolchain's command, isn't on the PATH" >&2
        return 1
    fi
    builder='' signal=''
    trap 'signal=TERM; hand_on' TERM
    trap 'signal=HUP; hand_on' HUP
    # The terminal sends this one to both.
    trap : INT
    # shellcheck disable=SC2046,SC2086
    "$top/packaging/first_build.py" $(cpu_flags) "$name" "$crate" -- $trial </dev/null >/dev/null &
    builder=$!
    hand_on
    wait "$builder"
    status=$?
    # A signal ends the first wait.
    while kill -0 "$builder" 2>/dev/null; do
        wait "$builder"
        status=$?
    done
    trap - TERM HUP INT
    [ -z "$signal" ] || kill "-$signal" "$$"
    case $status in
    0) ;;
    129 | 130 | 143)
        kill "-$((status - 128))" "$$"
        exit "$status"
        ;;
    *)
        echo "$name: can't be built: see the messages above" >&2
        return 1
        ;;
    esac
}

# Sends the script the signal that came, once both are there.
hand_on() { [ -z "$signal" ] || [ -z "$builder" ] || kill "-$signal" "$builder" 2>/dev/null; }

# Settings of the C library by which new memory takes less of the time (docs/SPEED.md has what each saves):
# huge pages, which are used where the system allows it (madvise or always in
# /sys/kernel/mm/transparent_hugepage/enabled); blocks of all sizes from the heaps, which have huge pages
# throughout, where a mapping of its own would begin and end in small ones; and 64 MB asked for at a time. What
# the variable has stays, and nothing is added where it says otherwise of huge pages.
ask_for_huge_pages() {
    case :${GLIBC_TUNABLES-}: in
    *:glibc.malloc.hugetlb=*) return ;;
    esac
    wanted=
    for setting in hugetlb=1 mmap_threshold=1073741824 top_pad=67108864; do
        case :${GLIBC_TUNABLES-}: in
        *:glibc.malloc."${setting%=*}"=*) ;;
        *) wanted=$wanted:glibc.malloc.$setting ;;
        esac
    done
    wanted=${GLIBC_TUNABLES-}$wanted
    export GLIBC_TUNABLES="${wanted#:}"
}

case ${1-} in
--help | -h) cat "$help" ;;
--version) version ;;
*)
    is_built || build || exit 1
    ask_for_huge_pages
    # The number of a stream that was closed would go to a file that the program opens. Nothing can be
    # written to what takes its place here either.
    [ -e /proc/self/fd/1 ] || exec 1</dev/null
    [ -e /proc/self/fd/2 ] || exec 2</dev/null
    exec "$program" "$@"
    ;;
esac
