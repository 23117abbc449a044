#!/bin/sh
# dist.sh PROGRAM [FOLDER]: makes the release of PROGRAM, and of humpipe-many beside it, in FOLDER, dist if nothing is said: a tarball, a Debian package, a Python wheel with the program in it,
# the source of the Python package, an extension for Visual Studio Code, and SHA256SUMS. In it is what git tracks, and nothing else.
#
# The same files give the same bytes. What stands in them has the date SOURCE_DATE_EPOCH; if nothing is said, that of the version in
# CHANGELOG.md. What needs a program that isn't there (debhelper and dh-python, a Python with tomllib) is left out, and told.
set -eu
umask 022
unset CDPATH
export LC_ALL=C TZ=UTC0
[ $# -ge 1 ] || { echo 'usage: dist.sh PROGRAM [FOLDER]' >&2; exit 2; }
top=$(cd -- "$(dirname -- "$0")/.." && pwd)
program=$(realpath -- "$1")
many=$(dirname -- "$program")/humpipe-many
[ -x "$many" ] || many=$top/crates/humpipe_many/out/humpipe_many
mkdir -p -- "${2:-dist}"
dist=$(cd -- "${2:-dist}" && pwd)
version=$(cat "$top/VERSION")
"$top/packaging/version.py" --check
day=$(sed -n "s/^## \[$version\] - //p" "$top/CHANGELOG.md")
SOURCE_DATE_EPOCH=${SOURCE_DATE_EPOCH:-$(date -d "$day" +%s)}
export SOURCE_DATE_EPOCH
room=$(mktemp -d)
trap 'rm -rf "$room"' EXIT INT TERM
name=humpipe-$version-linux-x86_64
tree=$room/$name
parts='README.md LICENSE NOTICE CHANGELOG.md CITATION.cff VERSION install.sh man docs completions editors examples python'

# shellcheck disable=SC2086 # the parts are words
# The files of the release that git tracks. Where the sources are no checkout, those that .gitignore doesn't name.
tracked() {
    if git -c safe.directory="$top" -C "$top" ls-files --error-unmatch VERSION >/dev/null 2>&1; then
        git -c safe.directory="$top" -C "$top" ls-files -- $parts
    else
        echo 'not a checkout: all files that .gitignore does not name are taken' >&2
        git init -q --bare "$room/git"
        git --git-dir="$room/git" --work-tree="$top" -C "$top" ls-files --others --exclude-per-directory=.gitignore -- $parts
    fi
}

# Gives all files below a folder one mode for each kind, and the date.
settle() {
    chmod -R u=rwX,go=rX "$1"
    find "$1" -exec touch -h -d "@$SOURCE_DATE_EPOCH" {} +
}

# The tree of the release: what the tarball has.
grow() {
    mkdir "$tree"
    (cd "$top" && tracked | grep -v "^docs/.*\.py$\|^python/make_codes.py$" | tar -c --no-recursion -T -) | tar -x -C "$tree"
    cp "$program" "$tree/humpipe"
    if [ -x "$many" ]; then cp "$many" "$tree/humpipe-many"; else echo 'left out: humpipe-many (not beside the program)'; fi
    strip=$(command -v strip || true)
    [ -z "$strip" ] || "$strip" --strip-unneeded "$tree"/humpipe*
    python3 "$top/packaging/pages.py" "$tree"
    settle "$tree"
}

tarball() {
    tar -C "$room" --sort=name --format=ustar --owner=0 --group=0 --numeric-owner -cf - "$name" | gzip -9n >"$dist/$name.tar.gz"
}

# The version of the C library that the programs need, and that they need no other library.
libc() {
    ldd "$tree"/humpipe* | awk '$1 !~ /:$/' | awk '{ print $1 }' | while read -r library; do
        case $library in
            linux-vdso.so.1 | libc.so.6 | */ld-linux-x86-64.so.2) ;;
            *) echo "dist.sh: the program needs $library, and no package is named for it" >&2; exit 1 ;;
        esac
    done
    grep -aho 'GLIBC_[0-9.]*' "$tree"/humpipe* | sed 's/GLIBC_//' | sort -uV | tail -n 1
}

# The Debian package, by debhelper in a copy of the tree. The Python module comes from the wheel.
package() {
    cp -R "$tree" "$room/source"
    cp -R "$top/packaging/debian" "$room/source/debian"
    maintainer=$(sed -n 's/^Maintainer: //p' "$top/packaging/debian/control")
    printf 'humpipe (%s) stable; urgency=medium\n\n  * What has changed is in CHANGELOG.md.\n\n -- %s  %s\n' \
        "$version" "$maintainer" "$(date -R -d "@$SOURCE_DATE_EPOCH")" >"$room/source/debian/changelog"
    python3 "$top/packaging/copyright.py" "$tree" >"$room/source/debian/copyright"
    mkdir "$room/source/debian/module"
    (cd "$room/source/debian/module" && python3 -m zipfile -e "$dist"/humpipe-*.whl . && rm -rf ./*.data ./*.dist-info/RECORD ./*.dist-info/licenses)
    (cd "$room/source" && dpkg-buildpackage -b -d -uc -us >"$room/log" 2>&1) || { cat "$room/log" >&2; exit 1; }
    cp "$room"/humpipe_*.deb "$dist"
}

rm -f "$dist"/humpipe[-_]*.tar.gz "$dist"/humpipe[-_]*.deb "$dist"/humpipe-*.whl "$dist"/humpipe-*.vsix "$dist/SHA256SUMS"
grow
tarball
python3 "$top/packaging/vsix.py" "$tree" "$dist"
if python3 -c 'import tomllib' 2>/dev/null; then
    python3 "$top/packaging/wheel.py" "$tree" "$(libc)" "$dist"
    if command -v dh >/dev/null && command -v dh_python3 >/dev/null; then package; else echo 'left out: the Debian package (no debhelper and dh-python)'; fi
else
    echo 'left out: the wheel, the source distribution and the Debian package (no Python 3.11)'
fi
(cd "$dist" && sha256sum humpipe[-_]* >SHA256SUMS && cat SHA256SUMS)
