#!/bin/sh
# Ends in 1, with one line on the error output, if this machine lacks what a target of the Makefile needs.
# usage: tools/needs.sh GB    the memory that it takes; RT is the toolchain's command, rt by default
package="a Debian package of devdry, from whoever has one, needs none of it"
command -v "${RT:-rt}" > /dev/null || {
    echo "make: there is no rt, the command of the Rattle kit, on PATH or in /opt/rattle/bin: $package" >&2
    exit 1
}
awk -v least="$1" '/^MemTotal/ { exit $2 < least * 1000000 }' /proc/meminfo || {
    echo "make: this takes $1 GB of memory, and the machine has less: $package" >&2
    exit 1
}
