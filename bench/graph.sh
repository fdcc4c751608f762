#!/bin/sh
# Times the proved program `bench_graph` on flat forms of N flips under two controls and N uses of them: the circuit graph
# alone, and with its ready order. Prints the seconds and the peak memory in megabytes for growing N.
# Usage: bench/graph.sh [N..]
top=$(cd "$(dirname "$0")/.." && pwd) || exit 1
program=$top/crates/bench_graph/out/bench_graph
(cd "$top/crates/bench_graph" && rt run -- 10 order) >/dev/null 2>&1
if [ ! -x "$program" ]; then
    echo "bench/graph.sh: the program was not built; run rt check in crates/bench_graph" >&2
    exit 1
fi
for kind in graph order; do
    sizes=${*:-12500 25000 50000 99997}
    for n in $sizes; do
        /usr/bin/time -f "%e %M" -o /tmp/bench_graph.$$ "$program" "$n" $kind >/dev/null || exit 1
        awk -v kind=$kind -v n="$n" '{ printf "%s n=%d %.2f s %.1f MB\n", kind, n, $1, $2 / 1024 }' /tmp/bench_graph.$$
    done
done
rm -f /tmp/bench_graph.$$
