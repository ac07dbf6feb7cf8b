#!/usr/bin/env bash
# Packs the program, its pages and its completions for Debian: DIR/devdry_VERSION_ARCHITECTURE.deb. The same files give
# the same package, byte by byte. It needs dpkg-deb; with dpkg-shlibdeps (package dpkg-dev) it knows which libc.
# usage: packaging/deb.sh PROGRAM DIR [EDITOR_PROGRAM]    with the language server, if one is named
#   DEBFULLNAME, DEBEMAIL     who makes the package, as Debian's other tools take it
#   SOURCE_DATE_EPOCH         the time of its files; by default that of the last commit, or of CHANGELOG.md
set -euo pipefail
top=$(cd "$(dirname "$0")/.." && pwd)
program=$(realpath "$1")
target=$(realpath "$2")
editor=${3:+$(realpath "$3")}
SOURCE_DATE_EPOCH=${SOURCE_DATE_EPOCH:-$(git -C "$top" log -1 --format=%ct 2> /dev/null || date -r "$top/CHANGELOG.md" +%s)}
export SOURCE_DATE_EPOCH
version=$("$program" --version | sed 's/^devdry //')
architecture=$(dpkg --print-architecture)
maintainer="${DEBFULLNAME:-$(id -un)} <${DEBEMAIL:-$(id -un)@$(hostname)}>"
work=$(mktemp -d)
trap 'rm -rf "$work"' EXIT
umask 022
root=$work/debian/devdry
doc=$root/usr/share/doc/devdry

mkdir -p "$root/DEBIAN"
MAKEFLAGS="" make --silent -C "$top" install PROGRAM="$program" DESTDIR="$root" PREFIX=/usr MANDIR=/usr/share/man \
    ZSHDIR=/usr/share/zsh/vendor-completions
programs=("$root/usr/bin/devdry")
if [ -n "$editor" ]; then
    install -m 755 "$editor" "$root/usr/bin/devdry-lsp"
    programs+=("$root/usr/bin/devdry-lsp")
fi
strip --remove-section=.comment --remove-section=.note "${programs[@]}"
gzip -9n "$root"/usr/share/man/man1/*
mkdir -p "$doc/docs/udev"
gzip -9nc "$top/CHANGELOG.md" > "$doc/CHANGELOG.md.gz"
# (below docs/, as README.md links to them; the pages for those who change devdry are left out)
sed 's/(CHANGELOG\.md)/(CHANGELOG.md.gz)/' "$top/README.md" > "$doc/README.md"
for page in behaviour editors writing-rules messages differences format measures proved DECISIONS; do cp "$top/docs/$page.md" "$doc/docs"; done
cp "$top"/docs/udev/*.md "$doc/docs/udev"
cp -r --no-preserve=mode "$top/examples" "$doc"
cat >> "$doc/README.md" << 'END'

## This package

What a page calls "of the sources", and what it names below `bench/`, `crates/`, `tests/`, `tools/` and `man/`, are files of the sources, from which this package is made.
END
# links to what is not here become words
while IFS=: read -r page linked; do
    [ -e "$(dirname "$page")/$linked" ] || sed -i "s|\[\([^]]*\)\]($linked)|\1 of the sources|g" "$page"
done < <(cd "$doc" && find "$PWD" -name '*.md' -exec grep -oHE '\]\([A-Za-z./_-]+\)' {} + | sed 's/:\](/:/; s/)$//' | sort -u)
gzip -9nc > "$doc/changelog.gz" << END
devdry ($version) unstable; urgency=low

  * See CHANGELOG.md.gz.

 -- $maintainer  $(LC_ALL=C date -u -R -d "@$SOURCE_DATE_EPOCH")
END
cat > "$doc/copyright" << 'END'
Format: https://www.debian.org/doc/packaging-manuals/copyright-format/1.0/
Upstream-Name: devdry

Files: *
Copyright: 2026 the makers of devdry
License: Apache-2.0
 On Debian systems the text of this license stands in /usr/share/common-licenses/Apache-2.0.
END

depends=libc6
if command -v dpkg-shlibdeps > /dev/null; then
    printf 'Source: devdry\n\nPackage: devdry\nArchitecture: any\n' > "$work/debian/control"
    depends=$(cd "$work" && dpkg-shlibdeps -O "${programs[@]}" | sed -n 's/^shlibs:Depends=//p')
fi

(cd "$root" && find usr -type f -print0 | LC_ALL=C sort -z | xargs -0 md5sum) > "$root/DEBIAN/md5sums"
cat > "$root/DEBIAN/control" << END
Package: devdry
Version: $version
Architecture: $architecture
Maintainer: $maintainer
Installed-Size: $(du -k -s --apparent-size "$root/usr" | cut -f 1)
Depends: $depends
Section: utils
Priority: optional
Description: dry run of udev's rules and hardware database
 Answers events by udev's rules and hardware database: which name, links,
 tags, properties and commands a device would get. Checks rules files and the
 files of the database, and tells which properties the database has for a
 device, with the file and the line that each comes from. It touches no device
 and starts no program, so it can be used in builds and on images of other
 systems.
END
find "$root" -exec touch -h -d "@$SOURCE_DATE_EPOCH" {} +
dpkg-deb --root-owner-group --build "$root" "$target/devdry_${version}_$architecture.deb"
