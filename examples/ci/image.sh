#!/bin/sh
# Looks at the rules and the database of an image, as a step of what makes it: image.sh ROOT. What can't be read is told
# and ends in 3; else a message, no file of rules or none of the database ends in 1. For an image that has no database,
# leave out the line on it. V6 is passed over, as udev still takes substitutions that no manual has.
root=${1:?}
status=0

# Runs a command, and keeps the largest status.
worst() {
    "$@" || { now=$?; [ "$now" -le "$status" ] || status=$now; }
}

devdry files -r "$root"
worst devdry verify --strict --format=gcc --ignore V6,comments -r "$root"
worst devdry update --all --strict --format=gcc --ignore comments -r "$root" > /dev/null
exit "$status"
