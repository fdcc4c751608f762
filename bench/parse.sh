#!/bin/sh
# Times the proved program `silqc` on source files of growing size: reading, tokens, tree, check, flat form, moves and text of a program
# of one bit with N statements. Prints the size of the file, the seconds and the peak memory in megabytes.
# Usage: bench/parse.sh [N..]
top=$(cd "$(dirname "$0")/.." && pwd) || exit 1
"$top/silqc" --prove || exit 1
program=$top/crates/silqc_bin/out/silqc_bin
file=/tmp/silqc_parse.$$
for n in ${*:-10000 20000 40000 80000}; do
    awk -v n="$n" 'BEGIN {
        printf "def main(x:B):B {"
        for (i = 0; i < n; i++) printf (i % 2 ? "x := X(x);" : "x := H(x);\n")
        print "return x; }"
    }' >"$file"
    /usr/bin/time -f "%e %M" -o "$file.time" "$program" compile "$file" main --budget 1 >/dev/null || exit 1
    awk -v n="$n" -v bytes="$(wc -c <"$file")" '{ printf "n=%d %d bytes %.2f s %.1f MB\n", n, bytes, $1, $2 / 1024 }' "$file.time"
done
rm -f "$file" "$file.time"
