#!/bin/sh
# Times `report` and `compile` of the proved program on the families of programs of `bench/families.sh`, each at four sizes.
# Prints the seconds and the peak memory in megabytes of both.
# Usage: bench/compile.sh [FAMILY..]
top=$(cd "$(dirname "$0")/.." && pwd) || exit 1
. "$top/bench/families.sh"
"$top/silqc" --prove || exit 1
program=$top/crates/silqc_bin/out/silqc_bin
file=/tmp/silqc_compile.$$

# timed WORD: runs the command on the file, and prints its seconds and megabytes.
timed() {
    /usr/bin/time -f "%e %M" -o "$file.time" "$program" "$1" "$file" main --budget "$budget" >"$file.text" || exit 1
    awk '{ printf "%.2f s %.1f MB", $1, $2 / 1024 }' "$file.time"
}

# sizes FAMILY: the four sizes at which it is measured.
sizes() {
    case $1 in
    statements) echo 20000 40000 80000 160000 ;;
    conjunctions) echo 5000 10000 20000 40000 ;;
    rounds) echo 25000 50000 100000 200000 ;;
    branches) echo 1000 2000 4000 8000 ;;
    elements) echo 1024 2048 4096 ;;
    adders) echo 16 32 64 ;;
    deep) echo 15 31 62 ;;
    chains) echo 5000 10000 20000 40000 ;;
    esac
}

for family in ${*:-statements conjunctions rounds branches elements adders deep chains}; do
    for n in $(sizes "$family"); do
        budget=100000
        [ "$family" = chains ] && budget=8
        "$family" "$n" >"$file"
        echo "$family $n: report $(timed report), compile $(timed compile)"
    done
done
rm -f "$file" "$file.time" "$file.text"
