#!/usr/bin/env bash
# Runs all tests that stand outside the gate (.ci/run), one after the other, and prints a line for each: whether it
# passed, its seconds and its last line. The last line of all is `N passed, M failed, K skipped`.
#
#     tests/all.sh [--install] [--build] [NAME..]
#     tests/all.sh --list
#
# With NAMEs only these run; --list prints them all. A test whose tools aren't installed is skipped, and the line
# says which; --install installs them first, by apt-get, as root, but for those of ssh and Slurm, whose packages start
# servers. The programs are those that the variables SGM and SGM_SERIES name (./sgm and ./sgm_series of this repository
# without them). Where those of this repository were never built, the tests that need them are skipped, and the line says
# so; --build builds them first, which takes many minutes. No other test starts them. With them all tests together take
# about half an hour, half of it compare, package and definitions. The last two ask the toolchain for what is proved, as a
# first start or the gate kept it on this machine. Where that is nothing they take many minutes more. Of the edits that
# stand outside the gate it asks only whether each can be applied; tests/edits.py tries them, for over an hour of
# processor time.
#
# Status: 0 where none failed, 1 where one did, 2 for wrong words. What a test that failed has printed is kept, and
# the path of the file stands below its line.
set -u
here=$(cd "$(dirname "$0")" && pwd)
top=$(cd "$here/.." && pwd)
# Only tests that need the programs are told of them, below: a tool that finds one named would start it.
programs=("SGM=$(realpath -m -- "${SGM:-$top/sgm}")" "SGM_SERIES=$(realpath -m -- "${SGM_SERIES:-$top/sgm_series}")")
unset SGM SGM_SERIES
# The ssh server and Slurm's daemons stand where only root's PATH leads.
PATH=$PATH:/usr/sbin

# The tests: name, what it needs (words of need, below), and the command.
table() {
    cat <<TABLE
launcher            -           tests/launcher.sh
first_build         -           packaging/test_first_build.py
scripts             opencv      tests/scripts.py
pages               -           tests/pages.py
broken_pages        -           tests/test_pages.py
shellcheck          shellcheck  shellcheck -x sgm sgm_series .ci/run $(cd "$top" && echo tests/*.sh tools/*.sh packaging/*.sh packaging/*.bash)
reference           -           tests/test_reference.py
reference_fine      -           tests/test_reference_fine.py
reference_cells     -           tests/test_reference_cells.py
reference_regions   -           tests/test_reference_regions.py
reference_pose      -           tests/test_reference_pose.py
reference_lists     -           tests/test_reference_lists.py
reference_merge     -           tests/test_reference_merge.py
reference_series    -           tests/test_reference_series.py
quick_reference     pictures    tests/test_quick_reference.py
stored_runs         -           tests/stored_runs.py
least_energies      -           tests/least_energies.py --check
kernels             -           tests/kernels.py
fine_cases          -           tests/fine_cases.py --check
cells_cases         -           tests/cells_cases.py --check
regions_cases       -           tests/regions_cases.py --check
pose_cases          -           tests/pose_cases.py --check
merge_cases         -           tests/merge_cases.py --check
large_pair          -           tests/large_pair.py
edits_apply         -           tests/edits.py --apply
cubic_metres        pictures    tools/test_cubic_metres.py
files               pictures    tools/test_files.py
regions             pictures    tools/test_regions.py
surveys             pictures    tools/test_surveys.py
installed           pictures,pip    tools/test_installed.py
types               pictures,mypy   tests/types.sh
slope_heap          pictures    tests/slope_heap.py
stretch             pictures    tools/test_stretch.py
heights_picture     pictures    tools/test_heights_picture.py
site_pose           pictures    tools/test_site_pose.py
export_points       pictures    tools/test_export_points.py
export_grid         pictures,gdal   tools/test_export_grid.py
exports_qgis        pictures,gdal,qgis  tests/exports.py Qgis
exports_meshlab     pictures,gdal,meshlab   tests/exports.py Meshlab
photo_to_pgm        pictures    tools/test_photo_to_pgm.py
opencv_calibration  opencv      tools/test_opencv_calibration.py
calibrate_pair      opencv      tools/test_calibrate_pair.py
board_volumes       opencv      tests/board_volumes.py
middlebury          -           tools/test_middlebury_calibration.py
accuracy            opencv      bench/test_accuracy.py
survey_page_files   pictures    tools/test_survey_page.py
change_volumes      pictures    tools/test_change_volumes.py
check_trace         pictures    tools/test_check_trace.py
explain_pixel       pictures    tools/test_explain_pixel.py
series_left         -           tools/test_series_left.py
merge_check         pictures    tools/test_merge_check.py
survey_page         browser     tests/survey_page.py
ends                program     tests/ends.sh
series_ends         series      tests/series_ends.sh
workers             program     tests/workers.sh
builds              program     tests/builds.py
hostile             program     tests/hostile.py
hostile_series      series      tests/hostile.py --series
random_cases        program     tests/random_cases.py --cases 400
random_series       series      tests/random_cases.py --series --cases 400
refused_allocations program,gcc tests/refused_allocations.sh
threads             program,gcc tests/threads.sh
interrupted         program     tests/interrupted.py
asc_gdal            program,gdal    tests/asc_gdal.sh
pgm_tools           program,netpbm  tests/pgm_tools.sh
unrectified_heap    program,opencv  tests/unrectified_heap.py
aslant_heap         program,opencv  tests/aslant_heap.py
version3_figures    program,pictures tests/version3_figures.py
certificates        program,pictures tests/certificates.py
surveys_program     program,pictures tools/test_surveys.py
later_heap          program,pictures tests/later_heap.py
moved_heap          program,opencv  tests/moved_heap.py
quarry              program,series,pictures,gdal tests/quarry.py
guide               program,opencv,gdal tests/guide.py
many                program,series,parallel,pictures tests/many.sh
many_ssh            program,parallel,ssh tests/many_ssh.sh
many_slurm          program,series,slurm tests/many_slurm.sh
compare             program     tests/compare.sh
package             rt,package  tests/package.sh
definitions         rt          tests/definitions.sh
TABLE
}

wrong() {
    echo "all: $1; --help says more" >&2
    exit 2
}

# python_with MODULE: a Python that has it, else python3. Debian's packages are those of /usr/bin/python3. Where another
# python3 on the PATH has no numpy, that one is made the first, below: the tools and their tests are started by `env python3`.
python_with() {
    local python
    for python in python3 /usr/bin/python3; do
        "$python" -c "import $1" 2>/dev/null && echo "$python" && return
    done
    echo python3
}

# need WHAT: prints why it isn't there and, after a TAB, the packages that bring it; nothing where it is.
need() {
    local command commands packages=$1
    case $1 in
    -) return ;;
    program)
        [ -z "$no_program" ] || printf '%s\t\n' "$no_program"
        return
        ;;
    series)
        [ -z "$no_series" ] || printf '%s\t\n' "$no_series"
        return
        ;;
    rt)
        command -v rt >/dev/null || printf "the toolchain's command rt isn't on the PATH\t\n"
        return
        ;;
    pictures)
        "$(python_with PIL)" -c "import numpy, PIL" 2>/dev/null || printf "numpy and Pillow for Python\tpython3-numpy python3-pil\n"
        return
        ;;
    opencv)
        "$(python_with cv2)" -c "import cv2, numpy, PIL" 2>/dev/null ||
            printf "OpenCV for Python\tpython3-opencv python3-numpy python3-pil\n"
        return
        ;;
    qgis)
        "$(python_with qgis)" -c "import qgis.core" 2>/dev/null || printf "QGIS for Python\tpython3-qgis\n"
        return
        ;;
    meshlab) commands="meshlabserver xvfb-run" packages="meshlab xvfb xauth" ;;
    browser)
        commands="chromium chromedriver" packages="chromium chromium-driver python3-selenium python3-numpy python3-pil"
        if ! "$(python_with selenium)" -c "import selenium, numpy, PIL" 2>/dev/null; then
            printf 'selenium for Python\t%s\n' "$packages"
            return
        fi
        ;;
    gdal) commands="gdalinfo gdallocationinfo gdal_calc.py" packages="gdal-bin python3-gdal" ;;
    netpbm) commands="pgmmake pamdepth pnmtopng pngtopnm" ;;
    gcc) commands=gcc packages="gcc libc6-dev" ;;
    parallel) commands=parallel ;;
    # Their packages start servers, so --install leaves them to whoever wants that.
    ssh)
        for command in rsync ssh sshd; do
            command -v "$command" >/dev/null || { printf "%s isn't installed (Debian: rsync openssh-server, by hand)\t\n" "$command" && return; }
        done
        return
        ;;
    slurm)
        for command in sbatch slurmctld slurmd munged; do
            command -v "$command" >/dev/null || { printf "%s isn't installed (Debian: slurm-wlm, by hand)\t\n" "$command" && return; }
        done
        return
        ;;
    package)
        commands="dpkg-deb lintian objdump cc xz man"
        packages="dpkg-dev lintian binutils gcc libc6-dev xz-utils man-db mmdebstrap"
        ;;
    shellcheck) commands=shellcheck ;;
    mypy) commands=mypy packages="mypy python3-pyflakes" ;;
    pip)
        /usr/bin/python3 -c "from importlib.util import find_spec as find; find('pip').name, find('setuptools').name, find('wheel').name" \
            2>/dev/null ||
            printf "pip, setuptools and wheel for Python\tpython3-pip python3-setuptools python3-wheel\n"
        return
        ;;
    esac
    for command in $commands; do
        command -v "$command" >/dev/null || { printf '%s\t%s\n' "$command" "$packages" && return; }
    done
}

# begin_program PATH NAME CRATE LINE: starts a program, and says in `missing` why the tests that need it can't run. With
# --build it is built here, once, so that its time is no test's. Where it should run and doesn't, that is a failure. NAME
# is the launcher of this repository that starts CRATE.
begin_program() {
    missing=
    if [ "$1" = "$top/$2" ] && [ ! -x "$top/crates/$3/out/$3" ]; then
        if ! command -v rt >/dev/null; then
            missing="there is no program $2: rt isn't on the PATH, and ${2^^} names none"
            return
        elif [ $do_build = no ]; then
            missing="the program $2 isn't built, and ${2^^} names none: --build builds it"
            return
        fi
    fi
    # Without words it ends with a line and the status 2.
    "$1" </dev/null >"$work/begin" 2> >(grep -vx "$4" >&2)
    if [ $? != 2 ]; then
        missing="the program doesn't run"
        failed=$((failed + 1))
        line FAILED "$2" "$1 doesn't run"
    fi
    rm "$work/begin"
}

# wanted NEED: whether a chosen test needs it.
wanted() {
    local name needs
    while read -r name needs _; do
        chosen "$name" && [[ ,$needs, = *,$1,* ]] && return
    done < <(table)
    return 1
}

install() {
    local packages
    packages=$(table | while read -r name needs _; do
        chosen "$name" || continue
        for it in ${needs//,/ }; do need "$it"; done
    done | cut -s -f 2 | tr ' ' '\n' | sort -u | tr '\n' ' ')
    [ -n "${packages// /}" ] || return
    if [ "$(id -u)" != 0 ] || ! command -v apt-get >/dev/null; then
        echo "all: --install takes root and apt-get; missing: $packages" >&2
        exit 1
    fi
    # shellcheck disable=SC2086
    if ! { apt-get -q update && DEBIAN_FRONTEND=noninteractive apt-get -qy install --no-install-recommends $packages; } >&2; then
        echo "all: $packages: can't be installed, see above" >&2
        exit 1
    fi
}

chosen() {
    local name
    [ ${#names[@]} = 0 ] && return
    for name in "${names[@]}"; do [ "$name" = "$1" ] && return; done
    return 1
}

line() { printf '%-8s %-19s %s\n' "$@"; }

# run NAME NEEDS COMMAND
run() {
    local name=$1 missing="" packages="" it reason begin words last
    for it in ${2//,/ }; do
        reason=$(need "$it")
        [ -n "$reason" ] || continue
        missing+=${missing:+, }${reason%$'\t'*}
        reason=${reason#*$'\t'}
        packages+=${packages:+${reason:+ }}$reason
    done
    if [ -n "$missing" ]; then
        skipped=$((skipped + 1))
        if [ -n "$packages" ]; then
            to_install+=" $packages"
            line skipped "$name" "$missing isn't installed (Debian: $packages)"
        else
            line skipped "$name" "$missing"
        fi
        return
    fi
    read -ra words <<<"$3"
    case $2,${words[0]} in
    opencv,*) words=("$(python_with cv2)" "${words[@]}") ;;
    esac
    case ,$2, in
    *,program,* | *,series,*) words=(env "${programs[@]}" "${words[@]}") ;;
    esac
    begin=$SECONDS
    if "${words[@]}" >"$work/$name.txt" 2>&1 </dev/null; then
        passed=$((passed + 1))
        last=$(tail -n 1 "$work/$name.txt")
        line passed "$name" "$((SECONDS - begin)) s${last:+  $last}"
        rm "$work/$name.txt"
    else
        failed=$((failed + 1))
        last=$(tail -n 1 "$work/$name.txt")
        line FAILED "$name" "$((SECONDS - begin)) s  $last"
        line "" "" "all of it: $work/$name.txt"
    fi
}

names=() do_install=no do_build=no
for word; do
    case $word in
    -h | --help)
        sed -n '2,/^[^#]/ s/^# \{0,1\}//p' "$0"
        exit 0
        ;;
    --list)
        [ $# = 1 ] || wrong "--list stands alone"
        table | sed 's/ .*//'
        exit 0
        ;;
    --install) do_install=yes ;;
    --build) do_build=yes ;;
    -*) wrong "unknown option $word" ;;
    *)
        table | grep -q "^$word " || wrong "no test is named $word"
        names+=("$word")
        ;;
    esac
done

cd "$top" || exit 1
no_program='' no_series=''
[ $do_install = no ] || install
work=$(mktemp -d "${TMPDIR:-/tmp}/sgm-all.XXXXXX") || exit 1
# What failed stays.
trap 'rm -rf "$work/bin"; rmdir "$work" 2>/dev/null' EXIT
if [ "$(python_with numpy)" != python3 ]; then
    mkdir "$work/bin" && ln -s "$(python_with numpy)" "$work/bin/python3" && PATH=$work/bin:$PATH
fi
passed=0 failed=0 skipped=0 to_install=
if wanted program; then
    begin_program "${programs[0]#SGM=}" sgm sgm_cli 'sgm: no command'
    no_program=$missing
fi
if wanted series; then
    begin_program "${programs[1]#SGM_SERIES=}" sgm_series sgm_series_cli 'sgm_series: no list'
    no_series=$missing
fi
while read -r name needs command <&3; do
    chosen "$name" && run "$name" "$needs" "$command"
done 3< <(table)
if [ -n "$to_install" ]; then
    packages=$(tr ' ' '\n' <<<"$to_install" | sort -u | tr '\n' ' ')
    echo "to try what was skipped, as root: apt-get install${packages% }, or tests/all.sh --install"
fi
echo "$passed passed, $failed failed, $skipped skipped"
[ "$failed" = 0 ]
