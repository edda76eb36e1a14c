# What the shell scripts of this folder share. They read it by `. "$(dirname "$0")/common.sh"`, which sets
#
#   name   the script's name, without its ending;
#   here   this folder; top, the folder above it;
#   work   a new folder, which goes away when the script ends;
#   SGM    the program that is tried, as an absolute path: the variable's, else ./sgm of this repository;
#   SGM_SERIES   the same of the program for series: the variable's, else ./sgm_series.
#
# A script takes no words but --help, which prints the comment at its head.
# shellcheck shell=bash disable=SC2034

name=$(basename "$0" .sh)
here=$(cd "$(dirname "$0")" && pwd)
top=$(cd "$here/.." && pwd)
SGM=$(realpath -m -- "${SGM:-$top/sgm}")
SGM_SERIES=$(realpath -m -- "${SGM_SERIES:-$top/sgm_series}")

case $# in
0) ;;
*)
    case $1 in
    -h | --help)
        sed -n '2,/^[^#]/ s/^# \{0,1\}//p' "$0"
        exit 0
        ;;
    esac
    echo "$name: it takes no words; --help says more" >&2
    exit 2
    ;;
esac

work=$(mktemp -d "${TMPDIR:-/tmp}/sgm-$name.XXXXXX") || exit 1
# A case may have taken rights away.
trap 'chmod -R u+rwX "$work"; rm -rf "$work"' EXIT

# has COMMAND..: whether all of them are installed.
has() {
    local command
    for command; do
        command -v "$command" >/dev/null || return 1
    done
}

# skip WHAT PACKAGE: ends the script, since WHAT isn't installed.
skip() {
    echo "$name: skipped: $1 isn't installed (Debian: $2)"
    exit 0
}

# Ends the script where the program doesn't run: without words it ends with 2 and a line. What has to be
# built is built here, so that its messages come into no case.
need_program() { runs "$SGM" 'sgm: no command'; }
need_series() { runs "$SGM_SERIES" 'sgm_series: no list'; }
runs() {
    "$1" 2> >(grep -vx "$2" >&2)
    [ $? = 2 ] && return
    echo "$name: $1 doesn't run" >&2
    exit 1
}

# has_merge: whether the program has the command `merge`, as the reference's inputs say.
has_merge() {
    python3 -c 'import sys; sys.path.insert(0, sys.argv[1]); import reference_inputs as it; sys.exit(not it.HAS_MERGE)' "$here"
}

# write_third FOLDER: a new folder with the worked pair of version 3, everything on: warps, penalties that follow the
# picture, finer disparities, a pose, means, bridges, regions with rises and an outline; and a list of two grids over
# its cells.
write_third() {
    python3 - "$here" "$1" <<'END'
import json, os, sys
sys.path.insert(0, sys.argv[1])
import hostile_calibrations as worked
other = worked.asc([[1, None, 3]], west=worked.SIDES["west"] - 800)
files = {**worked.FILES, "c.json": json.dumps(worked.ALL).encode()}
files |= {"m.txt": b"e.asc\nl.asc\n", "e.asc": worked.ENTRY, "l.asc": other}
os.mkdir(sys.argv[2])
for name, data in files.items():
    with open(os.path.join(sys.argv[2], name), "wb") as file:
        file.write(data)
END
}

# Opens a pipe that nobody reads any more, at the number in pipe.
unread_pipe() {
    exec {pipe}> >(:)
    wait "$!"
}

# Sets program to the program itself, as the launcher is a script; ends the script where there is none.
need_built() {
    need_program
    program=$SGM
    [ "$program" = "$top/sgm" ] && program=$top/crates/sgm_cli/out/sgm_cli
    head -c 4 "$program" | grep -q ELF && return
    echo "$name: skipped: $program is no built program"
    exit 0
}
