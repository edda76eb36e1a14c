#!/usr/bin/env bash
# Asks mypy whether the types of the tools hold together, in its strict mode, and ruff, or where it isn't there pyflakes,
# whether something in them is never used or isn't defined.
#
#     tests/types.sh
#
# mypy looks at the package and at the scripts, but for their tests and setup.py, with what tools/pyproject.toml says. It
# has to be there (Debian: mypy), and numpy, which brings its own types. Where neither ruff nor pyflakes is there
# the last line says so.
set -u
# shellcheck source-path=SCRIPTDIR source=common.sh
. "$(dirname "$0")/common.sh"
cd "$top/tools" || exit 1

failed=0
scripts=$(for file in *.py; do case $file in test_* | setup.py) ;; *) echo "$file" ;; esac; done)
# shellcheck disable=SC2086
if ! mypy --config-file pyproject.toml --cache-dir "$work/cache" sgm_tools $scripts >"$work/said" 2>&1; then
    cat "$work/said"
    failed=1
fi
types="mypy: $(tail -n 1 "$work/said")"

if command -v ruff >/dev/null; then
    names="ruff passes"
    ruff check --no-cache . || { names="ruff has complaints" failed=1; }
elif /usr/bin/python3 -c 'import pyflakes' 2>/dev/null; then
    names="pyflakes passes; ruff isn't installed"
    /usr/bin/python3 -m pyflakes . || { names="pyflakes has complaints; ruff isn't installed" failed=1; }
else
    names="skipped: neither ruff nor pyflakes is installed (Debian: python3-pyflakes)"
fi
echo "types: $types; $names"
[ $failed = 0 ]
