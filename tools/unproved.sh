#!/usr/bin/env bash
# Builds an optimized program of a crate in some three minutes, with run-time checks and WITHOUT A LOOK AT ANY PROOF, so that it
# can be run and tested long before it is proved. Nobody installs it by accident: `make` puts it into build/unproved.
# usage: tools/unproved.sh CRATE PROGRAM    RT is the toolchain's command, rt by default
# It rests on three things of the kit: on its way `rt try` leaves the LLVM module of the whole program, `module.bc`, in a folder
# below TMPDIR, which is whole once a file `module-*` is beside it (an earlier module of a few hundred bytes is not the program's);
# the kit's clang compiles it; and the C archives libos_c.a and liblibc_c.a are what the kit's own programs are linked with.
set -euo pipefail
crate=${1:?usage: tools/unproved.sh CRATE PROGRAM} program=${2:?usage: tools/unproved.sh CRATE PROGRAM}
rt=${RT:-rt} built=$(realpath -m "$program")
kit=$(dirname "$(dirname "$(realpath "$(command -v "$rt")")")")
top=$(cd "$(dirname "$0")/.." && pwd)
work=$(mktemp -d) running='' ticking=''

# Ends what this script started, and nothing else, and leaves no file of it behind.
end() {
    if [ -n "$ticking" ]; then kill "$ticking" 2> /dev/null || true; fi
    if [ -n "$running" ]; then
        kill -- "-$running" 2> /dev/null || true
        wait "$running" 2> /dev/null || true
    fi
    rm -rf "$work"
}
trap end EXIT
trap 'exit 130' INT
trap 'exit 143' TERM HUP

echo "$program: compiling crates/$crate and what it stands on; no proof is looked at"
# (a read that nothing answers waits without a process of its own)
exec {silence}<> <(:)
while ! read -r -t 20 -u "$silence"; do echo "$program: still at work, after $SECONDS seconds"; done &
ticking=$!
cd "$top/crates/$crate"
TMPDIR=$work setsid "$rt" try -- --version < /dev/null > "$work/log" 2>&1 &
running=$!
until module=$(find "$work" -name module.bc -size +64k -execdir sh -c 'set -- module-*; [ -e "$1" ]' ';' -print -quit 2> /dev/null) && [ -n "$module" ]; do
    kill -0 "$running" 2> /dev/null || {
        cat "$work/log" >&2
        echo "$program: not built, for what rt says above" >&2
        exit 1
    }
    sleep 0.2
done
cp "$module" "$work/whole.bc"
kill -- "-$running" 2> /dev/null || true
echo "$program: optimizing and linking, after $SECONDS seconds"
mkdir -p "$(dirname "$built")"
setsid "$kit/toolchain/bin/clang" --target=x86_64-unknown-linux-gnu --sysroot="$kit/toolchain" -march=x86-64 -mllvm -no-trap-after-noreturn \
    -ffunction-sections -fdata-sections -mllvm -trap-unreachable --no-default-config -fno-crash-diagnostics -fPIE -O1 \
    -c -x ir "$work/whole.bc" -o "$work/module.o" &
running=$!
# (a signal ends this wait, and then clang)
wait "$running"
cc -pie "$work/module.o" "$kit"/c/libos_c.a "$kit"/c/liblibc_c.a -o "$work/program"
mv "$work/program" "$built"
echo "$program: built in $SECONDS seconds"
