#!/bin/sh
# Times the proved program `bench_place`: it makes, places and writes the 3 N moves of N flips of temporaries under two
# controls. Prints what it prints, the seconds and the peak memory in megabytes for growing N.
# Usage: bench/place.sh [N..]
top=$(cd "$(dirname "$0")/.." && pwd) || exit 1
program=$top/crates/bench_place/out/bench_place
(cd "$top/crates/bench_place" && rt run -- 10) >/dev/null 2>&1
if [ ! -x "$program" ]; then
    echo "bench/place.sh: the program was not built; run rt check in crates/bench_place" >&2
    exit 1
fi
for n in ${*:-12500 25000 50000 99997}; do
    said=$(/usr/bin/time -f "%e %M" -o /tmp/bench_place.$$ "$program" "$n") || exit 1
    awk -v n="$n" -v said="$said" '{ printf "n=%d %s %.2f s %.1f MB\n", n, said, $1, $2 / 1024 }' /tmp/bench_place.$$
done
rm -f /tmp/bench_place.$$
