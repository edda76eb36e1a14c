#!/usr/bin/env bash
# Lets the program read PGM files that Netpbm's tools have made: as one byte and as two bytes a sample,
# and through PNG. Skipped where they aren't installed (Debian: netpbm). The program is the one that the
# variable SGM names (./sgm of this repository without it).
#
#     tests/pgm_tools.sh
set -u -o pipefail
# shellcheck source-path=SCRIPTDIR source=common.sh
. "$(dirname "$0")/common.sh"
has pgmmake pamdepth pnmtopng pngtopnm || skip Netpbm netpbm
need_program
failed=0

# reads FILE: the file of 20 x 10 pixels, matched with itself, gives disparities of the same size.
reads() {
    if "$SGM" match "$work/$1" "$work/$1" - "$work/out" >/dev/null &&
        head -n 3 "$work/out.pgm" | tr '\n' ' ' | grep -aqx 'P5 20 10 65535 '; then
        echo "pgm_tools: $1 is read"
    else
        echo "pgm_tools: $1 isn't read"
        failed=1
    fi
    rm -f "$work/out.pgm"
}

pgmmake 0.5 20 10 >"$work/single.pgm" && reads single.pgm || failed=1
pgmmake 0.5 20 10 | pamdepth 65535 >"$work/double.pgm" && reads double.pgm || failed=1
pgmmake 0.5 20 10 | pnmtopng | pngtopnm >"$work/png.pgm" && reads png.pgm || failed=1
[ "$failed" = 0 ] && echo "pgm_tools: all three are read"
[ "$failed" = 0 ]
