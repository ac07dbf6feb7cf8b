#!/usr/bin/env bash
# Unpacks udev 257 of Debian trixie with the libraries that it needs into DIR, for `chroot DIR /usr/bin/udevadm verify FILE`.
# Nothing is installed.
# usage: bench/udev_root.sh DIR
set -euo pipefail
mkdir -p "$1" && cd "$1"
lists=$(mktemp -d) && trap 'rm -rf "$lists"' EXIT
mkdir -p "$lists/state/partial" "$lists/cache/archives/partial" "$lists/debs"
touch "$lists/status"
echo 'deb [trusted=yes] http://deb.debian.org/debian trixie main' > "$lists/sources.list"
apt=(-o Dir::Etc::sourcelist="$lists/sources.list" -o Dir::Etc::sourceparts=/dev/null -o Dir::State::lists="$lists/state"
    -o Dir::Cache="$lists/cache" -o Dir::State::status="$lists/status" -o Acquire::Languages=none)
apt-get update -qq "${apt[@]}"
(cd "$lists/debs" && apt-get download -qq "${apt[@]}" systemd udev libsystemd-shared libudev1 libsystemd0 libc6 libblkid1 libkmod2 libacl1 \
    libcap2 libselinux1 libmount1 libcrypt1 libssl3t64 libpcre2-8-0 libaudit1 libpam0g libseccomp2 liblz4-1 libzstd1 liblzma5 \
    libgcrypt20 libgpg-error0 libapparmor1 libcap-ng0 zlib1g libxxhash0)
for package in "$lists"/debs/*.deb; do dpkg-deb -x "$package" .; done
for folder in bin sbin lib lib64; do [ -e "$folder" ] || ln -s "usr/$folder" "$folder"; done
mkdir -p proc dev tmp run
