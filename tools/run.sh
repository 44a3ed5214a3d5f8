#!/bin/sh
# Proves and builds a program of the repository, then runs it in its crate's folder: tools/run.sh NAME WORD..
# What the check says goes to target/build.log; it is shown only where there is nothing to run.
cd "$(dirname "$0")/.." || exit 1
mkdir -p target
said=$PWD/target/build.log
cd "crates/$1" || exit 1
shift
rt run -- "$@" 2> "$said"
status=$?
if grep -q '^rt: running ' "$said"; then
    sed '1,/^rt: running /d' "$said" >&2
else
    cat "$said" >&2
fi
exit "$status"
