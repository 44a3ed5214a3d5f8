#!/usr/bin/env bash
# Builds the proved steps as a static library and the harness over it, compares answers, times both, and counts
# instructions by callgrind: bench/run.sh. Ends with another status than 0 where answers differ.
set -euo pipefail
cd "$(dirname "$0")/.."
out=target/bench
mkdir -p "$out"

(cd crates/speed && rt lib) > "$out/build.log" 2>&1 || { cat "$out/build.log"; exit 1; }
rustc --edition 2024 -C opt-level=3 -C panic=abort -o "$out/speed" bench/main.rs \
    -L crates/speed/out -l static=speed

grep -m1 'model name' /proc/cpuinfo | sed 's/.*: //'
rustc --version
"$out/speed"

# Instructions of a program's run.
instructions() {
    valgrind --tool=callgrind --callgrind-out-file="$out/callgrind.$2.$3" "$out/speed" "$@" 2>&1 |
        sed -n 's/.*Collected : *//p'
}

printf '%-16s%12s%12s%8s\n' '' 'ours, instr' 'plain' 'ratio'
for kind in hash and-garble and-evaluate table-garble table-evaluate; do
    batch=$("$out/speed" count $kind ours 0)
    for side in ours plain; do
        none=$(instructions count $kind $side 0)
        many=$(instructions count $kind $side 20)
        eval "$side=$(((many - none) / (20 * batch)))"
    done
    awk -v kind=$kind -v ours="$ours" -v plain="$plain" \
        'BEGIN { printf "%-16s%12d%12d%8.3f\n", kind, ours, plain, ours / plain }'
done
