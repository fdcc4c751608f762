#!/bin/sh
# Compares what the user's pages say with what the repository holds. Prints each difference, and ends with 0 where there is none.
#
#   docs/check.sh           compares
#   docs/check.sh --write   first writes the rows of crates/test_pages from the pages
#   docs/check.sh --rows    prints these rows
#
# The rows: a program or circuit of a page stands in an indented block, and is the file try.slq or try.qasm. A line `silqc: ..` behind it is the
# note of `./silqc check try.slq main`, or with the words of a first line `// main 3`; with no such line this command writes nothing. A line
# `./silqc WORDS` is a command, over the last program of the page or a program of examples/, and what it writes follows. The other rows
# are those of the tables of rules in LANGUAGE.md and of examples/CIRCUITS.md.
top=$(cd "$(dirname "$0")/.." && pwd) || exit 1
cd "$top" || exit 1
pages='docs/NOTES.md docs/TUTORIAL.md docs/LANGUAGE.md docs/COMMANDS.md docs/CIRCUITS.md examples/CIRCUITS.md examples/TABLES.md'
table=crates/test_pages

rows() {
    # shellcheck disable=SC2086
    awk '
        # A line, as a row spells it.
        function spelled(line) {
            gsub(/\\/, "&&", line)
            gsub(/\t/, "\\t", line)
            return line "\\n"
        }
        # The text of a program of examples/.
        function example(name, all, line) {
            all = ""
            while ((getline line < name) > 0) all = all spelled(line)
            close(name)
            return all
        }
        function tell(words, answer, name, text) {
            split(words, part, " ")
            name = part[2]
            if (name == "try.slq" || name == "try.qasm") text = program
            if (name ~ /^examples\//) text = example(name)
            print words "|" text "\t" answer
        }
        # Ends a command, or a program that has none.
        function finish() {
            if (command != "" && (answer != "" || program != "")) tell(command, answer)
            if (command == "" && fresh && program ~ /(^|\\n)def /) tell(check, "")
            command = ""
            answer = ""
            fresh = 0
        }
        function begin_command(line) {
            if (command != "") finish()
            command = line
            answer = ""
            fresh = 0
        }
        function begin_program(line) {
            program = ""
            fresh = 1
            check = "check try.slq " (line ~ /^\/\/ main/ ? substr(line, 4) : "main")
        }
        # A row of a table of rules: a program, and its note in the last cell.
        function rule(line, cell) {
            split(line, cell, "` [|] `")
            program = substr(line, index(line, "| `def ") + 3)
            program = spelled(substr(program, 1, index(program, "`") - 1))
            sub(/^.*\| `silqc: /, "silqc: ", line)
            sub(/` \|$/, "", line)
            tell("check try.slq main", spelled(line))
        }
        # A row of examples/CIRCUITS.md: a command, and its seven numbers or its note.
        function circuit(line, cell, count, names, all, i) {
            count = split(line, cell, / *[|] */)
            gsub(/`/, "", cell[2])
            gsub(/`/, "", cell[3])
            sub(/^.\/silqc /, "", cell[2])
            split("wires steps outcomes level moves width gates", names, " ")
            all = ""
            if (cell[3] ~ /^silqc: /) all = spelled(cell[3])
            else for (i = 1; i <= 7; i++) all = all spelled(names[i] " " cell[2 + i])
            tell(cell[2], all)
        }
        FNR == 1 {
            finish()
            program = ""
            print "# " FILENAME
        }
        /^\| .*\| `def .*\| `silqc: .*` \|$/ { rule($0); program = ""; next }
        /^\| `\.\/silqc / { circuit($0); next }
        !/^    / { finish(); next }
        { line = substr($0, 5) }
        line ~ /^\.\/silqc / { begin_command(substr(line, 9)); next }
        command != "" { answer = answer spelled(line); next }
        line ~ /^silqc: / { tell(check, spelled(line)); fresh = 0; next }
        !fresh { begin_program(line) }
        { program = program spelled(line) }
        END { finish() }
    ' $pages
}

# What a test prints of its rows.
said() { printf '%s rows, 0 differ\n' "$(grep -vc '^#' "$1")"; }

differs=0
differ() {
    echo "docs/check.sh: $*"
    differs=1
}

compare_rows() {
    rows | diff - $table/stdin >"$room" || {
        head -20 "$room"
        differ "the rows of $table/stdin are not those of the pages (docs/check.sh --write makes them)"
    }
    [ "$(said $table/stdin)" = "$(cat $table/stdout)" ] || differ "$table/stdout has another count than its rows"
}

# Every note has an entry in NOTES.md, and no other entry is there. The names that only a table's command gives stand in its last section.
compare_notes() {
    {
        seq -f 'K%.0f' 24
        sed -n 's/^ *[A-Za-z]*::[A-Za-z0-9]* => "\([^"]*\)",$/\1/p' crates/silq_io/src/fault.rt crates/silq_io/src/limit.rt
        sed -n 's/.*"silqc: \([a-z ]*[a-z]\).*/\1/p' crates/silqc/src/status.rt | grep -v '^limit$'
    } | sort -u >"$room"
    sed -n 's/^### \([^:]*\).*/\1/p' docs/NOTES.md | sort >"$room.has"
    last=$(sed -n '/^## Notes of `mean` and `amps`/,$p' docs/NOTES.md)
    while read -r name; do
        grep -qxF "$name" "$room.has" || echo "$last" | grep -qE "\`([a-z]+: )?$name\`" || differ "docs/NOTES.md has nothing on '$name'"
    done <"$room"
    while read -r name; do
        grep -qxF "$name" "$room" || differ "docs/NOTES.md has an entry '$name', which no note is of"
    done <"$room.has"
}

# Every program of examples/ is in its README and, by the command of its comment, in its table of circuits.
compare_examples() {
    for file in examples/*.slq; do
        grep -q "^| \`${file#examples/}\` |" examples/README.md || differ "examples/README.md has no $file"
        command=$(sed -n 's/^\/\/ Try: //p' "$file")
        grep -qF "| \`$command\` |" examples/README.md || differ "examples/README.md has another command of $file"
        report=$(echo "$command" | sed 's/ compile / report /')
        grep -qF "| \`$report\` |" examples/CIRCUITS.md || grep -qF "| \`$command\` | \`silqc: " examples/CIRCUITS.md ||
            differ "examples/CIRCUITS.md has no row of $file"
    done
}

# The counts of rows in README.md.
compare_counts() {
    sed -n 's/[^(]*/&/p' README.md | tr '\n' ' ' | grep -o '[0-9][0-9]* [a-z]*[^(0-9]*(`test_[a-z]*`' >"$room"
    while read -r count rest; do
        crate=$(echo "$rest" | sed 's/.*`\(test_[a-z]*\)`$/\1/')
        [ ! -f "crates/$crate/stdout" ] || [ "$count rows, 0 differ" = "$(cat "crates/$crate/stdout")" ] ||
            differ "README.md says $count of $crate, which has: $(cat "crates/$crate/stdout")"
    done <"$room"
}

case ${1-} in
    --rows) rows && exit 0 ;;
    --write) rows >$table/stdin && said $table/stdin >$table/stdout || exit 1 ;;
esac
room=$(mktemp) || exit 1
trap 'rm -f "$room" "$room.has"' EXIT
compare_rows
compare_notes
compare_examples
compare_counts
exit $differs
