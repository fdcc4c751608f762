#!/bin/sh
# Times `amps` of the proved program on OpenQASM texts of N statements, and `mean` on programs with 2^K terms. Prints the seconds and the
# peak memory in megabytes.
# Usage: bench/read.sh
top=$(cd "$(dirname "$0")/.." && pwd) || exit 1
"$top/silqc" --prove || exit 1
program=$top/crates/silqc_bin/out/silqc_bin
file=/tmp/silqc_read.$$

# N gates on three qubits.
text() {
    awk -v n="$1" 'BEGIN {
        print "OPENQASM 2.0;\ninclude \"qelib1.inc\";\nqreg q[3];"
        for (i = 0; i < n; i += 3) print "x q[0];\ncx q[0],q[1];\nccx q[0],q[1],q[2];"
    }'
}

# K Hadamard gates on the K bits of a number: 2^K terms.
terms() {
    echo "def main():uint[$1]{x:=0:uint[$1];for i in [0..$1){x[i]:=H(x[i]);}return x;}"
}

# timed NAME WORDS..: the seconds and the memory of a command.
timed() {
    name=$1
    shift
    /usr/bin/time -f "%e %M" -o "$file.time" "$program" "$@" >/dev/null 2>&1
    awk -v name="$name" 'END { printf "%s: %.2f s %.1f MB\n", name, $1, $2 / 1024 }' "$file.time"
}

for n in 750000 1500000 3000000 6000000; do
    text "$n" >"$file"
    # The bits are too many, which is told when the whole text was read.
    timed "read $n" amps "$file" 1 none
    timed "read and run $n" amps "$file" none none
done
for k in 14 16 18 20; do
    terms "$k" >"$file"
    timed "terms 2^$k" mean "$file" main none none
done
rm -f "$file" "$file.time"
