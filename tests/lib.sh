# What the test scripts share; to be sourced. Each case is reported in one line: `ok CASE`, `not ok CASE` followed by what
# was seen, or `skipped CASE` if this machine lacks what the case needs. tests/run.sh counts the lines.
# shellcheck shell=bash disable=SC2034

top=$(cd "$(dirname "${BASH_SOURCE[0]}")/.." && pwd)
program=${PROGRAM:-$top/build/devdry}
work=$(mktemp -d)
trap 'rm -rf "$work"' EXIT

ok() { echo "ok $1"; }

# not_ok CASE TEXT: followed by the text, indented
not_ok() {
    echo "not ok $1"
    printf '%s\n' "$2" | sed 's/^/    /'
}

skipped() { echo "skipped $1: $2"; }

# same CASE EXPECTED GOT
same() {
    if [ "$2" = "$3" ]; then ok "$1"; else not_ok "$1" "$(diff <(printf '%s\n' "$2") <(printf '%s\n' "$3"))"; fi
}

# goes_well CASE COMMAND..: the command ends in 0; its output is shown only if it doesn't
goes_well() {
    local case=$1 said
    shift
    if said=$("$@" 2>&1); then ok "$case"; else not_ok "$case" "$said"; fi
}

# told_by COMMAND..: the command reports its own cases, one in a line. If it ends in another status than 0, as with a traceback,
# that is a case, too, and has failed.
told_by() {
    local status=0
    PYTHONDONTWRITEBYTECODE=1 "$@" || status=$?
    [ "$status" = 0 ] || not_ok "it ends in status 0: $(basename "$2")" "$status"
}

has() { command -v "$1" > /dev/null; }
