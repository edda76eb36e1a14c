#!/usr/bin/env bash
# Makes the package by packaging/build_deb.sh and tries it where there is no toolchain: it is built twice and compared,
# read by lintian, installed into a fresh Debian, in which the example, a tool and the man pages are tried, and removed
# again; then the archive and the launcher.
#
#     tests/package.sh
#
# The package is that of the checkout as it stands. The fresh Debian comes from mmdebstrap, as root and with a network;
# where it can't be had, the package is unpacked in a folder and tried with this system's C library, and the last line
# says so.
set -u
# shellcheck source-path=SCRIPTDIR source=common.sh
. "$(dirname "$0")/common.sh"
unset GLIBC_TUNABLES CDPATH
passed=0 failed=0

# is WHAT FOUND WANTED
is() {
    if [ "$2" = "$3" ]; then
        passed=$((passed + 1))
    else
        failed=$((failed + 1))
        printf 'package: %s is\n%s\nnot\n%s\n' "$1" "$2" "$3"
    fi
}

# works WHAT COMMAND..: whether the command ends with 0 and says nothing.
works() {
    local what=$1 said
    shift
    said=$("$@" 2>&1) && [ -z "$said" ]
    is "status of $what, and that it says nothing" "$? $said" "0 "
}

end() {
    echo "package: $passed passed, $failed failed$1"
    [ "$failed" = 0 ]
    exit
}

for each in one two; do
    if ! "$top/packaging/build_deb.sh" --changed --out "$work/$each" >"$work/said" 2>&1; then
        cat "$work/said"
        echo "package: it can't be built"
        exit 1
    fi
done
version=$(cat "$top/VERSION")
package=$work/one/sgm_${version}_amd64.deb
archive=$work/one/sgm-$version-x86_64.tar.xz
for file in "$package" "$archive"; do
    works "comparing $(basename "$file") with one made again" cmp "$file" "$work/two/$(basename "$file")"
done
lintian --allow-root --fail-on error,warning "$package" >"$work/said" 2>&1
is "status of lintian" $? 0
is "what lintian says" "$(grep '^[EW]:' "$work/said")" ""

# What is in it.

help_of() { if [ "$1" = sgm ]; then echo "$top/packaging/help.txt"; else echo "$top/packaging/help_$1.txt"; fi; }
unpacked=$work/unpacked
dpkg-deb -x "$package" "$unpacked"
is "the programs" "$(cd "$unpacked/usr/lib/sgm" && echo *)" "sgm-x86-64-v2 sgm-x86-64-v3 sgm_series-x86-64-v2 sgm_series-x86-64-v3"
# Registers of 256 and 512 bits came after x86-64-v2.
wide() { objdump -d "$unpacked/usr/lib/sgm/$1" | grep -c '%[yz]mm'; }
for program in sgm sgm_series; do
    is "instructions of $program for x86-64-v2 with wide registers" "$(wide $program-x86-64-v2)" 0
    [ "$(wide $program-x86-64-v3)" -gt 100 ]
    is "whether $program for x86-64-v3 has many of them (0: yes)" $? 0
    is "the help of $program" "$("$unpacked/usr/bin/$program" --help)" "$(cat "$(help_of $program)")"
    is "what -h prints" "$("$unpacked/usr/bin/$program" -h)" "$("$top/$program" --help)"
    is "the version of $program" "$("$unpacked/usr/bin/$program" --version)" "$("$top/$program" --version)"
    "$unpacked/usr/bin/$program" --version >/dev/full 2>"$work/said"
    is "status of a version that can't be written" "$? $(cat "$work/said")" "1 $program: standard output: No space left on device"
done
is "the kit that it names" "$(sed -n 's/^toolchain: //p' "$unpacked/usr/share/doc/sgm/PROVENANCE")" "$(rt version)"
is "the commit that it names" "$(sed -n '1s/.*commit //p' "$unpacked/usr/share/doc/sgm/PROVENANCE")" \
    "$(git -C "$top" rev-parse HEAD)"
# Its sums are of the programs, and all of them.
grep -E '^[0-9a-f]{64}  ' "$unpacked/usr/share/doc/sgm/PROVENANCE" >"$work/sums"
works "checking the sums" bash -c "cd '$unpacked/usr' && sha256sum --quiet -c '$work/sums'"
is "the files with a sum" "$(cut -c 67- "$work/sums")" "$(cd "$unpacked/usr" && ls -d lib/sgm/*)"
# The man page of a program has each command and each word of its help.
for program in sgm sgm_series; do
    gzip -dc "$unpacked/usr/share/man/man1/$program.1.gz" >"$work/$program.1"
    man -P cat "$work/$program.1" >"$work/page" 2>"$work/said"
    is "what man says of the page of $program" "$(cat "$work/said")" ""
    sed -n '/^sgm/ { s/=N\]/=/g; s/ \[*/\n/g; p }' "$(help_of $program)" | sort -u >"$work/words"
    while read -r word; do
        grep -q -- "$word" "$work/page"
        is "whether the man page of $program has $word (0: yes)" $? 0
    done <"$work/words"
done
for page in "$unpacked"/usr/share/man/man1/*; do
    works "man --warnings on $(basename "$page")" bash -c "man --warnings -E UTF-8 -Z -Tutf8 -l '$page' >/dev/null"
    [ -e "$unpacked/usr/bin/$(basename "$page" .1.gz)" ]
    is "whether $(basename "$page" .1.gz) is installed (0: yes)" $? 0
done

# Each tool answers under its own name, with what it reads to begin with.
while read -r _ name; do
    is "the usage of $name" "$("$unpacked/usr/bin/$name" --help | grep -o "^usage: $name ")" "usage: $name "
    is "its completion" "$(bash -c '. "$1"; complete -p "$2"' complete "$unpacked/usr/share/bash-completion/completions/sgm" "$name")" \
        "complete -F _sgm_tool $name"
done <"$top/packaging/names.txt"
# What the pages point at is there, and none names a tool as it is named in a checkout.
doc=$unpacked/usr/share/doc/sgm
grep -ro --include='*.md' '](\([^)#:]*\)[)#]' "$doc" | sed 's/](\([^)#]*\)[)#]$/\1/' | while IFS=: read -r page target; do
    [ -z "$target" ] || [ -e "$(dirname "$page")/$target" ] || echo "$page: $target"
done >"$work/said"
is "what the pages point at and isn't there" "$(cat "$work/said")" ""
# shellcheck disable=SC2016
cut -d ' ' -f 1 "$top/packaging/names.txt" | sed 's/.*/`\(tools\/\)\?&\.py`/' >"$work/named"
is "tools under other names" "$(grep -rlf "$work/named" --include='*.md' "$doc")" ""

# Words that go on with what was typed.

# completed PROGRAM WORD..: what bash would offer for the last word.
completed() {
    bash -c '. "$1"; cd "$2"; shift 2; COMP_WORDS=("$@") COMP_CWORD=$(($# - 1)); "_$1"; echo "${COMPREPLY[*]}"' \
        completed "$unpacked/usr/share/bash-completion/completions/sgm" "$top/examples/stockpile" "$@"
}
is "commands" "$(completed sgm '')" "$(sed -n 's/^sgm \([a-z]*\).*/\1/p' "$top/packaging/help.txt" | tr '\n' ' ')--help --version"
is "a picture" "$(completed sgm match l)" left.pgm
is "a calibration" "$(completed sgm match a b calibration.)" calibration.json
is "a direction" "$(completed sgm trace a b c downr)" downright
is "options that are left" "$(completed sgm match a b c d strips = 3 '')" "workers= peak= fill="
is "an option's number" "$(completed sgm match a b c d strips = '')" ""
is "a list" "$(completed sgm_series RE)" README.md
is "the words beside a list" "$(completed sgm_series --)" "--help --version"
is "the numbers of workers" "$(completed sgm_series README.md '')" "workers=1 workers=2"
is "the numbers behind the word" "$(completed sgm_series README.md workers =)" "1 2"
is "a number behind the word" "$(completed sgm_series README.md workers = 2)" 2
is "nothing behind it" "$(completed sgm_series README.md workers = 2 '')" ""
[ -e "$unpacked/usr/share/bash-completion/completions/sgm_series" ]
is "whether bash finds them (0: yes)" $? 0

# The launcher, before programs that are made up, which print their words, where they run and their GLIBC_TUNABLES.

made=$work/a\ folder
mkdir -p "$made"/{bin,lib/sgm} "$work/links"
cp "$unpacked"/usr/bin/{sgm,sgm_series} "$made/bin/"
cat >"$made/lib/sgm/sgm-x86-64-v3" <<'PROGRAM'
#!/usr/bin/env bash
printf '[%s]' "$@"
printf ' in %s with %s\n' "$PWD" "${GLIBC_TUNABLES-none}"
sed -n 's/^flags:.*\(.\)$/\1/p' /proc/$$/fdinfo/[12] >"$(dirname "$0")/streams"
exit 7
PROGRAM
chmod +x "$made/lib/sgm/sgm-x86-64-v3"
cp "$made"/lib/sgm/{sgm,sgm_series}-x86-64-v3
ln -s "$made"/bin/{sgm,sgm_series} "$work/links/"
cd "$work/links" || exit 1
tunables=glibc.malloc.hugetlb=1:glibc.malloc.mmap_threshold=1073741824
tunables=$tunables:glibc.malloc.top_pad=67108864
for launcher in {"$made/bin",.}/{sgm,sgm_series}; do
    is "the program's words" "$("$launcher" match 'a b' '' '*')" "[match][a b][][*] in $PWD with $tunables"
    "$launcher" >/dev/null
    is "status" $? 7
done
# Each value of the variable, and what it becomes.
while read -r given wanted; do
    is "with $given" "$(GLIBC_TUNABLES=$given ./sgm | sed 's/.* with //')" "$wanted"
done <<TABLE
glibc.malloc.check=3 glibc.malloc.check=3:$tunables
glibc.malloc.hugetlb=2 glibc.malloc.hugetlb=2
glibc.malloc.check=3:glibc.malloc.hugetlb=0 glibc.malloc.check=3:glibc.malloc.hugetlb=0
glibc.malloc.top_pad=4096 glibc.malloc.top_pad=4096:${tunables/:glibc.malloc.top_pad=67108864/}
TABLE
is "with an empty one" "$(GLIBC_TUNABLES='' ./sgm | sed 's/.* with //')" "$tunables"
./sgm >&- 2>/dev/null
is "the mode of what stands for a closed standard output" "$(head -n 1 "$made/lib/sgm/streams")" 0
./sgm 2>&- >/dev/null
is "the modes where standard error is closed" "$(tr '\n' ' ' <"$made/lib/sgm/streams")" "1 0 "
rm "$made/lib/sgm/sgm-x86-64-v3"
./sgm demo 0 >"$work/out" 2>"$work/said"
is "status where the program is missing" "$? $(cat "$work/out" "$work/said")" \
    "1 sgm: $made/lib/sgm/sgm-x86-64-v3: No such file or directory"
./sgm_series list >/dev/null
is "status of the other program" $? 7
cd "$top" || exit 1

# tried WHERE PREFIX COMMAND..: the example, a tool and the man pages of what is installed below PREFIX, each
# by the COMMAND that runs a command there, which then sees the files of WHERE.
tried() {
    local where=$1 prefix=$2 word
    shift 2
    local example=$prefix/share/sgm/examples/stockpile
    is "the toolchain there" "$("$@" sh -c 'command -v rt || echo none')" none
    is "what the match prints" "$("$@" "$prefix/bin/sgm" match "$example/left.pgm" "$example/right.pgm" \
        "$example/calibration.json" /tmp/sgm-heap-$$ 2>&1)" "valid 68976 of 76800"
    for word in pgm asc csv; do
        works "comparing OUT.$word" cmp "$where/tmp/sgm-heap-$$.$word" "$top/examples/stockpile/expected/out.$word"
    done
    # The same pair twice and one that is refused, as a series. No name in a list has a space.
    local series=/tmp/sgm-series-$$
    mkdir "$where$series"
    cp "$where$example"/{left.pgm,right.pgm,calibration.json} "$where$series/"
    for word in 1 2; do echo "$series/left.pgm $series/right.pgm $series/calibration.json $series/$word"; done >"$where$series/list"
    echo "$series/left.pgm $series/calibration.json - $series/3" >>"$where$series/list"
    "$@" "$prefix/bin/sgm_series" $series/list workers=2 >"$work/out" 2>"$work/said"
    is "what the series ends with" "$? $(cat "$work/said")" "3 sgm: right: not a binary PGM
sgm_series: 1 entries refused"
    is "what the series prints" "$(cat "$work/out")" "valid 68976 of 76800
valid 68976 of 76800"
    for word in 1.pgm 1.asc 1.csv 2.pgm 2.asc 2.csv; do
        works "comparing $word of the series" cmp "$where$series/$word" "$top/examples/stockpile/expected/out${word#?}"
    done
    is "the table in cubic metres" "$("$@" "$prefix/bin/sgm-cubic-metres" /tmp/sgm-heap-$$.csv --ground ground --digits 3 \
        --calibration "$example/calibration.json" | sed -n 2p)" "pile,6005,1,77.910,0.003,77.907,-0.016,3.454,0.036,74.574"
    "$@" "$example/compare_truth.py" /tmp/sgm-heap-$$ >"$work/out" 2>&1
    is "status of the comparison with the truth" $? 0
    is "lines of the man page that name its statuses" \
        "$("$@" man -M "$prefix/share/man" -P cat sgm 2>/dev/null | grep -c 'EXIT STATUS')" 1
    is "the same of the series" \
        "$("$@" man -M "$prefix/share/man" -P cat sgm_series 2>/dev/null | grep -c 'EXIT STATUS')" 1
    is "the tool's man page" \
        "$("$@" man -M "$prefix/share/man" -P cat sgm-cubic-metres 2>/dev/null | grep -c '^ *--digits N')" 1
    # It needs a file beside it, and packages that may be missing, which it then names.
    "$@" "$prefix/bin/sgm-page" /tmp/sgm-heap-$$ --calib "$example/calibration.json" >"$work/out" 2>&1
    word=$?
    if "$@" /usr/bin/python3 -c 'import numpy, PIL' 2>/dev/null; then
        is "status of the page" $word 0
    else
        is "status of the page without packages" "$word $(cat "$work/out")" \
            "1 sgm-page: numpy and PIL of Python needed: apt-get install python3-numpy python3-pil on Debian"
    fi
    # The match as a function of Python.
    local script='import sys, sgm_tools
try: print(sgm_tools.survey(*sys.argv[1:4], program=sys.argv[4]).line)
except Exception as error: print(error)'
    "$@" env "PYTHONPATH=$prefix/share/sgm/tools" /usr/bin/python3 -B -c "$script" "$example/left.pgm" "$example/right.pgm" \
        "$example/calibration.json" "$prefix/bin/sgm" >"$work/out" 2>&1
    word=$(cat "$work/out")
    if "$@" /usr/bin/python3 -c 'import numpy' 2>/dev/null; then
        is "what the function says" "$word" "valid 68976 of 76800"
    else
        is "what the function says without numpy" "$word" "numpy of Python needed: apt-get install python3-numpy on Debian"
    fi
    rm -rf "$where/tmp/sgm-heap-$$".* "$where$series"
}

# The archive, below any folder. Its files belong to whoever unpacks it.

tar -C "$made" --no-same-owner -xf "$archive"
# shellcheck disable=SC2317
plain() { env -i PATH=/usr/bin:/bin HOME=/nonexistent "$@"; }
tried "" "$made/sgm-$version" plain
mkdir "$work/local"
ln -s "$made/sgm-$version/bin"/* "$work/local/"
for program in sgm sgm_series; do
    is "the version of $program by a link" "$(plain "$work/local/$program" --version)" "$("$top/$program" --version)"
done
is "a tool by a link" "$(plain "$work/local/sgm-cubic-metres" --help | grep -o '^usage: sgm-cubic-metres')" \
    "usage: sgm-cubic-metres"

# A fresh Debian.

files() { (cd "$root" && find . -xdev \( -path ./var -o -path ./tmp -o -path ./proc -o -path ./sys -o -path ./dev \) -prune -o -print | sort); }
inside() { chroot "$root" env -i PATH=/usr/sbin:/usr/bin:/sbin:/bin LC_ALL=C.UTF-8 "$@"; }
root=$work/root
if [ "$(id -u)" != 0 ] || ! has mmdebstrap; then
    why="no mmdebstrap, or not root"
elif ! mmdebstrap --variant=minbase --include=man-db,python3 bookworm "$root" >"$work/said" 2>&1; then
    why="mmdebstrap: $(tail -n 1 "$work/said")"
    rm -rf "$root"
else
    why=
fi
if [ -n "$why" ]; then
    tried "" "$unpacked/usr" plain
    end ", not installed in a fresh Debian ($why)"
fi
files >"$work/before"
cp "$package" "$root/tmp/sgm.deb"
inside dpkg -i /tmp/sgm.deb >"$work/said" 2>&1
is "status of dpkg -i" $? 0
[ -z "$(files | comm -23 "$work/before" -)" ]
is "whether all that was there is there (0: yes)" $? 0
tried "$root" /usr inside
inside dpkg --purge sgm >"$work/said" 2>&1
is "status of dpkg --purge" "$? $(grep -i warning "$work/said")" "0 "
is "what it left" "$(files | diff "$work/before" -)" ""
end ""
