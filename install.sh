#!/bin/sh
# install.sh [--uninstall] [PREFIX]: installs humpipe below PREFIX, /usr/local if nothing is said: the programs humpipe and humpipe-many, their man pages, the manual with examples and
# the editors' files, and the completions of three shells. --uninstall takes away what was installed there. PROGRAM is another humpipe than the one
# beside this script, with its humpipe-many beside it; DESTDIR goes before PREFIX.
set -eu
unset CDPATH
here=$(cd -- "$(dirname -- "$0")" && pwd)
program=${PROGRAM:-$here/humpipe}
many=$(dirname -- "$program")/humpipe-many
does=place
if [ "${1-}" = --uninstall ]; then
    does=take
    shift
fi
[ $# -le 1 ] || { echo 'usage: install.sh [--uninstall] [PREFIX]' >&2; exit 2; }
prefix=${1-/usr/local}
case $prefix in
    '') echo 'install.sh: an empty PREFIX' >&2; exit 2 ;;
    -*) echo "install.sh: no folder: $prefix" >&2; exit 2 ;;
esac
to=${DESTDIR:-}$prefix
manual=$to/share/doc/humpipe
[ "$does" = take ] || [ -x "$program" ] || { echo "install.sh: no program at $program" >&2; exit 1; }

# Installs a file, as `place MODE FILE TO`.
place() { install -D -m "$1" -- "$2" "$3"; }

# Takes a file away, and the folders that it leaves empty.
take() {
    rm -f -- "$3"
    folder=$(dirname -- "$3")
    while [ "$folder" != "$to" ] && rmdir -- "$folder" 2>/dev/null; do folder=$(dirname -- "$folder"); done
}

# Does that with all files below a folder, as `files FOLDER TO`.
files() {
    (cd -- "$1" && find . -name __pycache__ -prune -o -type f -print) | while read -r name; do
        mode=644
        [ ! -x "$1/$name" ] || mode=755
        $does "$mode" "$1/$name" "$2/${name#./}"
    done
}

$does 755 "$program" "$to/bin/humpipe"
$does 644 "$here/man/humpipe.1" "$to/share/man/man1/humpipe.1"
if [ "$does" = take ] || [ -x "$many" ]; then
    $does 755 "$many" "$to/bin/humpipe-many"
    $does 644 "$here/man/humpipe-many.1" "$to/share/man/man1/humpipe-many.1"
fi
for name in LICENSE NOTICE CHANGELOG.md CITATION.cff VERSION; do
    $does 644 "$here/$name" "$manual/$name"
done
(cd -- "$here/docs" && find . -type f \( -name '*.md' -o -name '*.svg' -o -name '*.png' \)) | while read -r name; do
    $does 644 "$here/docs/$name" "$manual/${name#./}"
done
files "$here/examples" "$manual/examples"
files "$here/editors" "$manual/editors"
$does 644 "$here/completions/humpipe.bash" "$to/share/bash-completion/completions/humpipe"
$does 644 "$here/completions/_humpipe" "$to/share/zsh/site-functions/_humpipe"
$does 644 "$here/completions/humpipe.fish" "$to/share/fish/vendor_completions.d/humpipe.fish"
