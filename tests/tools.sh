#!/usr/bin/env bash
# Installs the tools that tests use and that this machine lacks, from Debian's packages; so root has to run it. Without any of
# them the tests that use it are skipped, and the gate fails (tests/skips.txt has the skips that it allows).
# usage: tests/tools.sh [--list]    with --list it only prints the packages that are missing, and ends in 1 if there are some
set -euo pipefail

# what a test looks for, and the package that has it; a word with a dot is a module of Python
needed='cc gcc
ldd libc-bin
make make
git git
python3 python3
python3.yaml python3-yaml
man man-db
groff groff
mandoc mandoc
shellcheck shellcheck
pyflakes3 pyflakes3
jq jq
zsh zsh
fish fish
vim vim
nvim neovim
emacs emacs-nox
meson meson
ninja ninja-build
pre-commit pre-commit
rpmbuild rpm
dpkg-deb dpkg
dpkg-shlibdeps dpkg-dev
fakeroot fakeroot
lintian lintian
strip binutils
setpriv util-linux
gawk gawk
mawk mawk
busybox busybox
valgrind valgrind'

missing=''
while read -r it package; do
    case $it in
        *.*) "${it%%.*}" -c "import ${it#*.}" 2> /dev/null || missing="$missing $package" ;;
        *) command -v "$it" > /dev/null || missing="$missing $package" ;;
    esac
done <<< "$needed"
# (from version 29 on Emacs has eglot itself)
emacs --batch --eval "(progn (package-initialize) (require 'eglot))" > /dev/null 2>&1 || missing="$missing elpa-eglot"
missing=${missing# }
[ -n "$missing" ] || exit 0
if [ "${1:-}" = --list ]; then
    tr ' ' '\n' <<< "$missing"
    exit 1
fi
echo "tests/tools.sh: installing $missing"
apt-get update -qq
# shellcheck disable=SC2086
DEBIAN_FRONTEND=noninteractive apt-get install -y -qq --no-install-recommends $missing > /dev/null
