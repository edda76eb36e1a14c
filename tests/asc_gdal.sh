#!/usr/bin/env bash
# Checks that GDAL reads a height grid as it is meant: size, origin, cell size, the value of empty cells
# and every height, each against the calibration or the text that the program wrote, and the least and
# greatest height against the report. A difference of two grids it reads exactly where it is told to keep 64
# bits (AAIGRID_DATATYPE=Float64), and not without, as the guide says. Skipped where gdalinfo isn't installed
# (Debian: gdal-bin). The program is the one that the variable SGM names (./sgm of this repository without it).
#
#     tests/asc_gdal.sh
set -u
# shellcheck source-path=SCRIPTDIR source=common.sh
. "$(dirname "$0")/common.sh"
has gdalinfo gdallocationinfo || skip gdalinfo gdal-bin
need_program
failed=0

# same WHAT WANTED FOUND
same() {
    [ "$2" = "$3" ] && return
    failed=$((failed + 1))
    echo "asc_gdal: $case: $1 is '$3', not '$2'"
}

of_grid() { python3 -c "import json; grid = json.load(open('$calibration'))['grid']; print($1)"; }
of_info() { sed -n "s/^ *$1//p" info; }

# check NAME LEFT RIGHT CALIBRATION: runs the program in the folder at hand and asks GDAL about its grid.
check() {
    case=$1 calibration=$4
    "$SGM" match "$2" "$3" "$4" o >/dev/null || { echo "asc_gdal: $case: $SGM failed" >&2; exit 1; }
    gdalinfo -mm o.asc >info || exit 1
    same driver "AAIGrid/Arc/Info ASCII Grid" "$(of_info 'Driver: ')"
    same size "$(of_grid "f\"{grid['cols']}, {grid['rows']}\"")" "$(of_info 'Size is ')"
    local zeros=000000000000000
    same origin "$(of_grid "f\"({grid['west']}.$zeros,{grid['south'] + grid['rows'] * grid['cell']}.$zeros)\"")" \
        "$(of_info 'Origin = ')"
    same "cell size" "$(of_grid "f\"({grid['cell']}.$zeros,-{grid['cell']}.$zeros)\"")" "$(of_info 'Pixel Size = ')"
    same "value of empty cells" -2147483648 "$(of_info 'NoData Value=')"
    # Every cell: GDAL counts columns from the west and rows from the north, as the text goes.
    local row col cols rows
    cols=$(of_grid "grid['cols']") rows=$(of_grid "grid['rows']")
    for ((row = 0; row < rows; row++)); do
        for ((col = 0; col < cols; col++)); do echo "$col $row"; done
    done | gdallocationinfo -valonly o.asc >found
    tail -n +7 o.asc | tr ' ' '\n' | cmp -s - found || { failed=$((failed + 1)); echo "asc_gdal: $case: heights differ"; }
    if ! grep -qx -- -2147483648 found || ! grep -qvx -- -2147483648 found; then
        failed=$((failed + 1))
        echo "asc_gdal: $case: the grid has no filled or no empty cell"
    fi
    local least greatest
    least=$(grep -vx -- -2147483648 found | sort -n | head -n 1)
    greatest=$(grep -vx -- -2147483648 found | sort -n | tail -n 1)
    same "least and greatest" "$least.000,$greatest.000" "$(of_info 'Computed Min\/Max=')"
    echo "asc_gdal: $case: $(wc -l <found) heights asked of GDAL"
}

# The case of make_cases.py in which the first region covers the grid: its lowest and highest are those of all cells.
python3 "$here/make_cases.py" "$work/cases" && cd "$work/cases/everything" || exit 1
check everything l.pgm r.pgm c.json
same "report's lowest and highest" "$(sed -n '2s/.*,\(.*\),\(.*\)/\1.000,\2.000/p' o.csv)" "$(of_info 'Computed Min\/Max=')"

# The example with the heap.
cd "$work/cases/heap" || exit 1
check heap left.pgm right.pgm calibration.json

# A difference: half of the cells rise by 20 m and a micrometre, the others fall by 30 m and 3, and one is gone. 32 bits
# lose micrometres from 16.8 m on.
case=difference
awk 'NR <= 6 { print; next }
    { for (at = 1; at <= NF; at++) if ($at != -2147483648) $at += (at + NR) % 2 ? 20000001 : -30000003; print }' \
    o.asc | sed '10s/ [-0-9]*$/ -2147483648/' >later.asc
"$SGM" change o.asc later.asc d >/dev/null || { echo "asc_gdal: $case: $SGM failed" >&2; exit 1; }
cols=$(of_grid "grid['cols']") rows=$(of_grid "grid['rows']")
for ((row = 0; row < rows; row++)); do
    for ((col = 0; col < cols; col++)); do echo "$col $row"; done
done >places
tail -n +7 d.asc | tr ' ' '\n' >wanted
gdalinfo --config AAIGRID_DATATYPE Float64 d.asc >info || exit 1
same "value of cells without a difference" -9999999999 "$(of_info 'NoData Value=')"
gdallocationinfo -valonly --config AAIGRID_DATATYPE Float64 d.asc <places >found
cmp -s wanted found || { failed=$((failed + 1)); echo "asc_gdal: $case: with 64 bits numbers differ"; }
gdallocationinfo -valonly d.asc <places >found
if cmp -s wanted found; then
    failed=$((failed + 1))
    echo "asc_gdal: $case: 32 bits lose nothing: the guide and FORMATS say that they do"
fi
echo "asc_gdal: $case: $(wc -l <wanted) numbers asked of GDAL, $(paste wanted found | awk '$1 != $2' | wc -l) wrong with 32 bits"

[ "$failed" = 0 ] && echo "asc_gdal: GDAL reads them as they are meant"
[ "$failed" = 0 ]
