#!/usr/bin/env bash
# Computes the definitions of specs/ on small arguments, by proofs that only compute, and compares them with
# plain Python (definitions.py). Every page has to be proved; and with one false value on each page none may be.
# Skipped where the toolchain (rt) isn't there. The programs take no part. The libraries that hold the definitions
# are taken as `rt check` proved them in this checkout, or else as a first start of ./sgm or the gate (.ci/run) proved
# them on this machine. Where none has proved the same files they are proved here first, which takes many minutes.
#
#     tests/definitions.sh
set -u
# shellcheck source-path=SCRIPTDIR source=common.sh
. "$(dirname "$0")/common.sh"
has rt || { echo "definitions: skipped: the toolchain's command rt isn't on the PATH"; exit 0; }
crate=$work/crates/sgm_pages

# A copy of the workspace, with one crate more: the pages. Of what was proved here it takes the libraries alone.
proved=out
[ ! -d "$top/crates/sgm_app/out/rlib" ] || proved=incremental
tar -C "$top" --exclude=must-fail --exclude=$proved -c crates crates.txt HANDLES |
    tar -C "$work" -x || exit 1
mkdir -p "$crate/src" "$crate/specs" "$crate/proofs" || exit 1
printf '%s\n' '//! Cases of the definitions.' '#![tactic(auto)]' >"$crate/src/lib.rt"
: >"$crate/specs/Lib.antt"
libraries=$(sed -n 's/#.*//; s/:.*//p' "$work/crates.txt" | grep -vx -e 'sgm_.*cli' -e sgm_cases -e 'sgm_.*_tests' | tr '\n' ' ')
echo "sgm_pages: serde_json $libraries" >>"$work/crates.txt"

# Proves the pages. `rt check` takes the libraries that stand beside them, and `rt ci` those that it kept. That wants
# files that are laid out; with names it isn't the gate, and so refuses to run where CI is set.
prove() {
    (
        cd "$crate" || exit 1
        if [ $proved = out ]; then rt fmt && cd "$work" && env -u CI rt ci sgm_pages; else rt check; fi
    ) >"$work/log" 2>&1
}
# The pages that weren't proved.
unproved() {
    grep -o 'proofs/[A-Z][a-z]*\.antt:[0-9:]* error' "$work/log" |
        sed 's/proofs.//; s/\.antt.*//' | sort -u
}

python3 "$here/definitions.py" "$crate/proofs" || exit 1
if ! prove; then
    tail -n 40 "$work/log"
    echo "definitions: not proved: $(unproved | tr '\n' ' ')"
    exit 1
fi
python3 "$here/definitions.py" "$crate/proofs" --wrong >/dev/null || exit 1
prove
missed=$(unproved | comm -13 - <(sed 's/pub mod //' "$crate/proofs/Lib.antt" | sort) | tr '\n' ' ')
[ -z "$missed" ] || { echo "definitions: a false value is proved on: $missed"; exit 1; }
echo "definitions: all hold, and no page with a false value"
