#!/usr/bin/env bash
# `make install` puts its files where they belong, `make uninstall` removes just these, and the Debian package can be
# installed, run and removed, in a root folder of its own.
set -uo pipefail
# shellcheck source=lib.sh
. "$(dirname "$0")/lib.sh"

make_in() { make --silent -C "$top" "$@" PROGRAM="$program"; }
sorted() { LC_ALL=C sort; }
files_of() { (cd "$1" && find . ! -type d | sed 's/^\.//' | sorted); }

# wanted PREFIX ZSHDIR END: what `make install` puts there, with this ending for the pages
wanted() {
    printf '%s\n' "$1"/bin/devdry{,-capture,-test} "$1"/share/devdry/devdry-capture{,-forms,-questions,-shown}.awk "$2"/_devdry{,-capture,-test} \
        "$1"/share/bash-completion/completions/devdry{,-capture,-test} "$1"/share/fish/vendor_completions.d/devdry{,-capture,-test}.fish
    for page in "$top"/man/*.1; do echo "$1/share/man/man1/${page##*/}$3"; done
}

root=$work/root
mkdir -p "$root/usr/local/bin"
touch "$root/usr/local/bin/other"
goes_well "make install" make_in install DESTDIR="$root"
installed=$(wanted /usr/local /usr/local/share/zsh/site-functions '')
same "the files after make install" "$({ echo "$installed"; echo /usr/local/bin/other; } | sorted)" "$(files_of "$root")"
same "the installed program runs" "$("$program" --version)" "$(env -i "$root/usr/local/bin/devdry" --version)"
captured=$("$top/tools/devdry-capture" --from "$top/examples/machine.txt")
capture_in() { env -i PATH="$PATH" "$1/devdry-capture" --from "$top/examples/machine.txt"; }
same "the installed devdry-capture runs" "$captured" "$(capture_in "$root/usr/local/bin")"
same "the installed devdry-test finds the installed programs" "met
0" "$(cd "$top" && env -i PATH=/usr/bin:/bin "$root/usr/local/bin/devdry-test" \
    -r "$work/none" --from examples/machine.txt /dev/sda examples/disk.rules | sed -n 's/^why .*reached its end: .*/met/p'; echo "${PIPESTATUS[0]}")"
ln -s "$root/usr/local/bin/devdry-capture" "$work/devdry-capture"
same "the installed devdry-capture runs through a symlink" "$captured" "$(capture_in "$work")"
goes_well "make uninstall" make_in uninstall DESTDIR="$root"
same "the files after make uninstall" /usr/local/bin/other "$(files_of "$root")"

own=(PREFIX=/p BINDIR=/b MANDIR=/m BASHDIR=/c/bash ZSHDIR=/c/zsh FISHDIR=/c/fish)
goes_well "make install with other folders" make_in install DESTDIR="$work/own" "${own[@]}"
moved='s|^/p/bin|/b|; s|^/p/share/devdry|/share/devdry|; s|^/p/share/man|/m|; s|^/p/share/bash-completion/completions|/c/bash|; s|^/p/share/fish/[a-z_.]*|/c/fish|'
same "the files after make install with other folders" "$(wanted /p /c/zsh '' | sed "$moved" | sorted)" "$(files_of "$work/own")"
same "devdry-capture installed in other folders runs" "$captured" "$(capture_in "$work/own/b")"
goes_well "make uninstall with other folders" make_in uninstall DESTDIR="$work/own" "${own[@]}"
same "no files after make uninstall with other folders" "" "$(files_of "$work/own")"

# Blanks in the folder, in the prefix and in the program's name.
mkdir "$work/a program" && cp "$program" "$work/a program/devdry"
goes_well "make install with blanks" make --silent -C "$top" install PROGRAM="$work/a program/devdry" DESTDIR="$work/a root" PREFIX="/usr local"
same "the files after make install with blanks" "$(wanted '/usr local' '/usr local/share/zsh/site-functions' '' | sorted)" "$(files_of "$work/a root")"
goes_well "make uninstall with blanks" make --silent -C "$top" uninstall DESTDIR="$work/a root" PREFIX="/usr local"
same "no files after make uninstall with blanks" "" "$(files_of "$work/a root")"
mkdir -p "$work/end /usr/local/bin" "$work/end/usr/local/bin" && touch "$work/end/usr/local/bin/devdry"
goes_well "make uninstall with a blank at the end" make --silent -C "$top" uninstall DESTDIR="$work/end "
same "another folder is left as it is" /usr/local/bin/devdry "$(files_of "$work/end")"

# What is missing is said in one line, and nothing is done.
lacks() { make --silent -C "$top" "$@" 2>&1 | grep -vE '^make(\[[0-9]+\])?: \*\*\*'; }
same "make install without a program" "make: there is no $work/none: \`make proofs\` makes the proved programs, in more than an hour; or build those of which no proof was looked at by \`make\`, and then add UNPROVED=1 here" \
    "$(lacks install PROGRAM="$work/none" DESTDIR="$work/nothing")"
same "nothing is installed then" "" "$(find "$work" -path "$work/nothing*")"
for target in unproved proofs check mutants; do
    same "make $target without the toolchain" "make: there is no rt, the command of the Rattle kit, on PATH or in /opt/rattle/bin: a Debian package of devdry, from whoever has one, needs none of it" \
        "$(lacks $target RT="$work/none")"
done

if ! has dpkg-deb || ! has strip; then
    skipped "make deb" "there is no dpkg-deb"
    exit 0
fi
mkdir "$work/debs" "$work/again"
goes_well "packaging/deb.sh" "$top/packaging/deb.sh" "$program" "$work/debs"
goes_well "packaging/deb.sh a second time" "$top/packaging/deb.sh" "$program" "$work/again"
deb=$(echo "$work"/debs/*.deb)
goes_well "both packages are equal" cmp "$deb" "$work/again/${deb##*/}"
mapfile -t examples < <(cd "$top" && find examples -type f)
docs=$(printf '/usr/share/doc/devdry/%s\n' README.md CHANGELOG.md.gz changelog.gz copyright \
    docs/{behaviour,editors,writing-rules,messages,differences,format,measures,proved,DECISIONS}.md docs/udev/{BUILTINS,EVENTS,LINKS,READING}.md \
    "${examples[@]}")
same "the files of the package" "$({ wanted /usr /usr/share/zsh/vendor-completions .gz; echo "$docs"; } | sorted)" \
    "$(dpkg-deb --fsys-tarfile "$deb" | tar -t | sed 's/^\.//' | grep -v '/$' | sorted)"

# What pages of the package link to or name below docs/ and examples/, each from the folder of its page; names have the
# package's folder before them.
dpkg-deb -x "$deb" "$work/unpacked"
lacking=$(cd "$work/unpacked/usr/share/doc/devdry" && find . -name '*.md' | while IFS= read -r page; do
    # shellcheck disable=SC2016
    { grep -oE '\]\([^):]+\)' "$page" | sed "s|^](|${page%/*}/|; s|)\$||; s|#.*||"; grep -oE '`(docs|examples)/[A-Za-z/_.-]+`' "$page" | tr -d '`'; } \
        | while IFS= read -r file; do [ -e "$file" ] || echo "$page: $file"; done
done)
same "the package has what its pages point to" "" "$lacking"
same "what it has not is of the sources" "start with CONTRIBUTING.md of the sources; docs/architecture.md of the sources is" \
    "$(grep -oE 'start with .* is the map' "$work/unpacked/usr/share/doc/devdry/README.md" | sed 's/ the map$//')"

as_root=()
if [ "$(id -u)" != 0 ]; then as_root=(fakeroot); fi
if [ "${#as_root[@]}" = 1 ] && ! has fakeroot; then
    skipped "dpkg -i" "dpkg -i needs root or fakeroot"
    exit 0
fi
machine=$work/machine
mkdir -p "$machine"/var/lib/dpkg/{info,updates,triggers}
touch "$machine/var/lib/dpkg/status"
# (in a root folder of its own dpkg knows no libc6)
in_machine() { "${as_root[@]}" dpkg --root="$machine" --log=/dev/null --force-depends --force-script-chrootless "$@"; }
goes_well "dpkg -i" in_machine -i "$deb"
same "the program installed by dpkg runs" "$("$program" --version)" "$(env -i "$machine/usr/bin/devdry" --version)"
goes_well "dpkg -r" in_machine -r devdry
same "no files after dpkg -r" "" "$(files_of "$machine/usr" 2> /dev/null)"
