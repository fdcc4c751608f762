#!/bin/sh
# Times `check` of the proved program on the families of programs of `bench/families.sh`, each at three or four sizes, and on N functions
# of which one in ten is called. Prints the seconds and the peak memory in megabytes.
# Usage: bench/check.sh [FAMILY..]
top=$(cd "$(dirname "$0")/.." && pwd) || exit 1
. "$top/bench/families.sh"
"$top/silqc" --prove || exit 1
program=$top/crates/silqc_bin/out/silqc_bin
file=/tmp/silqc_check.$$

# N functions, of which one in ten is called.
functions() {
    awk -v n="$1" 'BEGIN {
        for (i = 0; i < n; i++) printf "def f%d(x:B):B{return x;}\n", i
        printf "def main(x:B):B{"
        for (i = 0; i < n; i += 10) printf "x:=f%d(x);\n", i
        print "return x;}"
    }'
}

# sizes FAMILY: the sizes at which it is measured.
sizes() {
    case $1 in
    rounds) echo 250000 500000 999990 ;;
    statements) echo 40000 80000 160000 ;;
    functions) echo 5000 10000 20000 ;;
    instances) echo 1000 2000 4000 ;;
    *) echo 4000 8000 16000 ;;
    esac
}

for family in ${*:-rounds statements functions arguments parameters instances branches}; do
    for n in $(sizes "$family"); do
        "$family" "$n" >"$file"
        # A call with too many arguments is refused: that is what is measured.
        /usr/bin/time -f "%e %M" -o "$file.time" "$program" check "$file" main 2>/dev/null
        awk -v name="$family $n" 'END { printf "%s: %.2f s %.1f MB\n", name, $1, $2 / 1024 }' "$file.time"
    done
done
rm -f "$file" "$file.time"
