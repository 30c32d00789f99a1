#!/bin/sh
# Reviews scripts before they are published, as in a pipeline of the repository that has the profile: prints what each
# changes, and ends with 1 if the profile or a script is invalid, or if a script leaves clients stuck that aren't now.
# Usage: review.sh PROFILE SCRIPT..
set -eu
profile=$1
shift
review=$(mktemp)
trap 'rm -f "$review"' EXIT
omaha check "$profile"
for script; do
    echo "$script"
    sed 's/^base *=.*/base = 1/' "$script" > "$review"
    omaha review "$profile" --script "$review" --strict
done
