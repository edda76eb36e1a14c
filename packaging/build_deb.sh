#!/usr/bin/env bash
# Makes what is installed where there is no toolchain: sgm_VERSION_amd64.deb, and sgm-VERSION-x86_64.tar.xz, the same
# tree for systems without dpkg. VERSION is what the file of that name has.
#
#     packaging/build_deb.sh [--out FOLDER] [--changed]
#
# For example: packaging/build_deb.sh --out /tmp/sgm. Without --out both go to packaging/out. Each program is built
# twice, for every processor (x86-64-v2) and for newer ones (x86-64-v3), by first_build.py, which builds nothing that
# isn't proved and starts each once, so this takes a processor of the newer kind. The checkout has to be clean: with
# --changed it need not be, and the package says so. Made twice from one commit the files have the same bytes.
#
# Needs rt, git, cc, binutils, dpkg-deb, xz and Python. Status: 0 made, 1 not, 2 wrong words.
set -eu -o pipefail
export LC_ALL=C TZ=UTC
umask 022
top=$(CDPATH='' cd "$(dirname "$0")/.." && pwd)

fail() {
    echo "build_deb: $1" >&2
    exit 1
}

wrong() {
    echo "build_deb: $1; --help says more" >&2
    exit 2
}

out=$top/packaging/out is_changed_allowed=no
while [ $# != 0 ]; do
    case $1 in
    -h | --help)
        sed -n '2,/^[^#]/ s/^# \{0,1\}//p' "$0"
        exit 0
        ;;
    --out)
        [ -n "${2-}" ] || wrong "--out takes a folder"
        out=$2
        shift
        ;;
    --changed) is_changed_allowed=yes ;;
    *) wrong "unknown word $1" ;;
    esac
    shift
done

for command in rt git cc objdump readelf strip dpkg-deb xz python3; do
    command -v "$command" >/dev/null || fail "$command isn't installed"
done
mkdir -p "$out" || fail "$out: can't be made"
out=$(CDPATH='' cd "$out" && pwd)
cd "$top"
work=$(mktemp -d "${TMPDIR:-/tmp}/sgm-package.XXXXXX")
trap 'rm -rf "$work"' EXIT

git rev-parse --git-dir >/dev/null 2>&1 || fail "this is no git checkout, so there is no commit to name"
changed=
if [ -n "$(git status --porcelain)" ]; then
    [ $is_changed_allowed = yes ] || fail "the checkout has changes (git status); commit them, or see --help, --changed"
    changed=", with changes that were not committed"
fi
read -r version <VERSION
version_line=$(./sgm --version)
commit=$(git rev-parse HEAD)
SOURCE_DATE_EPOCH=$(git log -1 --format=%ct)
export SOURCE_DATE_EPOCH

tree=$work/tree
usr=$tree/usr
doc=$usr/share/doc/sgm
mkdir -p "$usr"/{bin,lib/sgm} "$usr"/share/{sgm,man/man1,bash-completion/completions} "$doc"

# put MODE FOLDER FILE..
put() {
    local mode=$1 folder=$2
    shift 2
    mkdir -p "$folder"
    install -m "$mode" "$@" "$folder/"
}

# The programs.

# The file with the words of the program: help.txt, or help_NAME.txt.
help_of() { if [ "$1" = sgm ]; then echo packaging/help.txt; else echo "packaging/help_$1.txt"; fi; }

# Ends the script where something of the program of that name is missing.
need_program() {
    local name=$1 crate=${1}_cli file
    grep -q "^${crate}[ :]" crates.txt || fail "$name: crates.txt has no crate $crate, which the package needs"
    for file in "crates/$crate/src/main.rt" "$(help_of "$name")" "packaging/man/$name.1"; do
        [ -e "$file" ] || fail "$name: there is no $file, which the package needs"
    done
}

# build_program NAME WORD..: both builds of the program of that name, which is started with these words, and the
# launcher that picks one.
build_program() {
    local name=$1 crate=${1}_cli processor
    shift
    for processor in x86-64-v2 x86-64-v3; do
        echo "build_deb: $name for $processor" >&2
        packaging/first_build.py --cpu $processor --into "$work/$name" "$name" "$crate" -- "$@" </dev/null >/dev/null ||
            fail "$name: $crate isn't built for $processor, or doesn't run: see the messages above"
        strip -o "$usr/lib/sgm/$name-$processor" "$work/$name"
    done
    ! cmp -s "$usr/lib/sgm/$name"-x86-64-v[23] || fail "$name: both builds of $crate are the same"
    cc -O2 -fPIE -pie -fstack-protector-strong -fcf-protection -D_FORTIFY_SOURCE=2 -Wall -Wextra -Werror -s \
        -Wl,-z,relro,-z,now,--build-id=none "-DPROGRAM=\"$name\"" "-DVERSION_LINE=\"$name${version_line#sgm}\"" \
        "-DHELP=\"$(help_of "$name")\"" packaging/launcher.c -o "$usr/bin/$name"
    put 644 "$usr/share/man/man1" "packaging/man/$name.1"
}

need_program sgm
need_program sgm_series
build_program sgm demo 0
# A list without entries.
build_program sgm_series /dev/null

# What the C library has to be for all of them. They may use no other library.
binaries=("$usr"/bin/* "$usr"/lib/sgm/*)
readelf -d "${binaries[@]}" >"$work/dynamic"
strange=$(sed -n 's/.*(NEEDED).*\[\(.*\)\]/\1/p' "$work/dynamic" | grep -vxE 'libc\.so\.6|libm\.so\.6|ld-linux-x86-64\.so\.2' || true)
[ -z "$strange" ] || fail "a program uses more than the C library: $strange"
libc=$(objdump -T "${binaries[@]}" | grep -o 'GLIBC_[0-9.]*' | sort -uV | tail -n 1)

# The tools, under names of their own, and what comes with them. Installed text names them so.

# Tests stay out, and what pip needs.
left_out='/(test_[^/]*|setup\.py|pyproject\.toml|py\.typed)$'
git ls-files tools | grep -vE "$left_out" | while read -r file; do
    put 644 "$usr/share/sgm/$(dirname "$file")" "$file"
done
git ls-files examples | grep -vE '/(accuracy|settings)\.py$' | while read -r file; do
    put 644 "$usr/share/sgm/$(dirname "$file")" "$file"
done
git ls-files docs README.md CHANGELOG.md | while read -r file; do put 644 "$doc/$(dirname "$file")" "$file"; done
ln -s ../../sgm/examples "$doc/examples"
ln -s ../../sgm/tools "$doc/tools"
edits=(-e 's#\./sgm #sgm #g' -e 's#\./sgm_series #sgm_series #g')
install -m 644 packaging/completion.bash "$usr/share/bash-completion/completions/sgm"
ln -s sgm "$usr/share/bash-completion/completions/sgm_series"
names=packaging/names.txt
# shellcheck disable=SC2094
while read -r tool name; do
    if [ -e "$usr/share/sgm/tools/$tool.py" ]; then
        edits+=(-e "s#tools/$tool\\.py#$name#g" -e "s#\`$tool\\.py\`#\`$name\`#g")
        ln -s "../share/sgm/tools/$tool.py" "$usr/bin/$name"
        ln -s sgm "$usr/share/bash-completion/completions/$name"
        python3 packaging/tool_page.py "tools/$tool.py" --names $names >"$usr/share/man/man1/$name.1"
    else
        sed -i "/^\.BR ${name//-/\\\\-} /d" "$usr"/share/man/man1/sgm{,_series}.1
    fi
done <$names
find "$usr/share/sgm" "$doc" -type f \( -name '*.py' -o -name '*.html' -o -name '*.md' \) -exec sed -i "${edits[@]}" {} +
find "$usr/share/sgm" -type f -name '*.sh' -exec chmod 755 {} +
# -B: nothing is written beside what is installed. A tool's module has no first line that says what runs it.
grep -rl '^#!/usr/bin/env python3$' "$usr/share/sgm" | while read -r file; do
    sed -i '1s/.*/#!\/usr\/bin\/python3 -B/' "$file"
    chmod 755 "$file"
done

# What vouches for it.

trusted=$(sed -n 's/^\*\*Trusted\*\*: //p' docs/PROVED.md)
[ -n "$trusted" ] || fail "docs/PROVED.md has no paragraph that begins with **Trusted**:"
(cd "$usr" && sha256sum lib/sgm/*) >"$work/sums"
fold -s -w 112 <<<"$trusted" | sed 's/^/    /; s/ *$//' >"$work/trusted"
sed -e "s/@VERSION@/$version/" -e "s/@COMMIT@/$commit/" -e "s/@KIT@/$(rt version)/" -e "s/@CHANGED@/$changed/" \
    -e "/@SUMS@/r $work/sums" -e "/@TRUSTED@/r $work/trusted" -e '/@SUMS@\|@TRUSTED@/d' packaging/provenance.txt >"$doc/PROVENANCE"
sed "s/@YEAR@/$(date -u -d "@$SOURCE_DATE_EPOCH" +%Y)/" packaging/copyright.txt >"$doc/copyright"
maintainer=$(sed -n 's/^Maintainer: //p' packaging/control.txt)
cat >"$doc/changelog" <<CHANGES
sgm ($version) unstable; urgency=medium

  * See CHANGELOG.md.

 -- $maintainer  $(date -u -d "@$SOURCE_DATE_EPOCH" '+%a, %d %b %Y %H:%M:%S +0000')
CHANGES
gzip -9n "$doc/changelog" "$usr"/share/man/man1/*

# The package and the archive. Every time in them is the commit's.

mkdir "$tree/DEBIAN"
size=$(find "$usr" \( -type f -printf '%s\n' \) -o -printf '1\n' | awk '{ total += int(($1 + 1023) / 1024) } END { print total }')
sed -e "s/@VERSION@/$version/" -e "s/@SIZE@/$size/" -e "s/@LIBC@/${libc#GLIBC_}/" \
    packaging/control.txt >"$tree/DEBIAN/control"
(cd "$tree" && find usr -type f -print0 | sort -z | xargs -0 md5sum) >"$tree/DEBIAN/md5sums"
find "$tree" -exec touch -h -d "@$SOURCE_DATE_EPOCH" {} +
package=$out/sgm_${version}_amd64.deb
archive=$out/sgm-$version-x86_64.tar.xz
# One thread: xz writes other bytes with other numbers of them.
DPKG_DEB_THREADS_MAX=1 dpkg-deb --root-owner-group -Zxz --build "$tree" "$work/made.deb" >/dev/null
tar -C "$tree" --sort=name --owner=0 --group=0 --numeric-owner --format=gnu --mtime="@$SOURCE_DATE_EPOCH" \
    --transform="flags=r;s#^usr#sgm-$version#" -cf - usr | xz -T1 >"$work/made.tar.xz"
mv "$work/made.deb" "$package"
mv "$work/made.tar.xz" "$archive"
sha256sum "$package" "$archive"
