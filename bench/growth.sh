#!/usr/bin/env bash
# Instructions of whole settlements by their number of gates, by callgrind: bench/growth.sh. It proves and builds transcript first.
set -euo pipefail
cd "$(dirname "$0")/.."
out=target/bench
mkdir -p "$out"
python3 bench/growth.py xor 8 | tools/run.sh transcript > "$out/growth.first"

printf '%-8s%8s%16s%12s\n' '' gates instructions 'a gate'
for kind in xor and table; do
    for gates in 50 100 200 400; do
        python3 bench/growth.py $kind $gates > "$out/growth.in"
        many=$(valgrind --tool=callgrind --callgrind-out-file="$out/callgrind.growth" crates/transcript/out/transcript \
            < "$out/growth.in" 2>&1 > "$out/growth.out" | sed -n 's/.*Collected : *//p')
        printf '%-8s%8d%16d%12d\n' $kind $gates "$many" $((many / gates))
    done
done
