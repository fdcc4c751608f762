# Programs that grow in one thing, for the scripts of this folder, which read this file. Each function prints a program of size N whose
# entry is `main`. A program is at most 1,048,576 bytes long, so names and spaces are short.

# N updates of one bit.
statements() {
    awk -v n="$1" 'BEGIN {
        printf "def main(const a:B):B{y:=dup(a);"
        for (i = 0; i < n; i++) printf "y^=a;"
        print "return y;}"
    }'
}

# N conjunctions, each into a bit of its own, and N uses of them.
conjunctions() {
    awk -v n="$1" 'BEGIN {
        printf "def main(const a:B,const b:B,x:B):B{"
        for (i = 0; i < n; i++) printf "t%d:=a&&b;x^=t%d;", i, i
        print "return x;}"
    }'
}

# A loop of N rounds.
rounds() {
    echo "def main(x:B):B{for i in [0..$1){x:=X(x);}return x;}"
}

# N run-time branches with N variables in reach.
branches() {
    awk -v n="$1" 'BEGIN {
        printf "def main(const c:B){"
        for (i = 0; i < n; i++) printf "v%d:=dup(c);", i
        printf "for i in [0..%d){if c{phase(pi/4);}}}\n", n
    }'
}

# N elements of one array, each assigned once.
elements() {
    echo "def main(x:B^$1):B^$1{for i in [0..$1){x[i]:=X(x[i]);}return x;}"
}

# One sum of numbers of N bits, N at most 64.
adders() {
    echo "def main(const a:uint[$1],x:uint[$1]):uint[$1]{x+=a;return x;}"
}

# N functions, each calls the one before inside 60 nested branches, N at most 62.
deep() {
    awk -v n="$1" 'BEGIN {
        print "def f0(const c:B) qfree{return;}"
        for (i = 1; i <= n; i++) {
            printf "def f%d(const c:B) qfree{", i
            for (k = 0; k < 60; k++) printf "if c{"
            printf "f%d(c);", i - 1
            for (k = 0; k < 60; k++) printf "}"
            print "return;}"
        }
        printf "def main(const c:B) qfree{f%d(c);return;}\n", n
    }'
}

# A call with N arguments of a function that has no parameter: refused.
arguments() {
    awk -v n="$1" 'BEGIN {
        printf "def f(){return;}def main(const a:B){f("
        for (i = 0; i < n; i++) printf (i ? ",a" : "a")
        print ");}"
    }'
}

# A call with N held arguments.
parameters() {
    awk -v n="$1" 'BEGIN {
        for (i = 0; i < n; i++) { head = head (i ? "," : "") "const p" i ":B"; used = used (i ? "," : "") "p" i }
        printf "def f(%s){return;}def main(%s){f(%s);}\n", head, head, used
    }'
}

# N instances of one function met in one expression, N at most 4,095.
instances() {
    awk -v n="$1" 'BEGIN {
        for (i = 0; i < n; i++) { names = names (i ? "," : "") "x" i; calls = calls (i ? "," : "") "f[" i "]()" }
        printf "def f[n:!N]() lifted:B{return true;}def main(){(%s):=(%s);}\n", names, calls
    }'
}

# One update in N rounds under four chains of three temporaries each, which a small budget makes silqc compute again.
chains() {
    awk -v n="$1" 'BEGIN {
        printf "def main(const a:B,const b:B,x:B):B{t:=a&&b;u:=t||a;v:=u&&b;w:=v||t;for i in [0..%d){if t{x:=X(x);}if u{x:=X(x);}if v{x:=X(x);}if w{x:=X(x);}}return x;}\n", n
    }'
}
