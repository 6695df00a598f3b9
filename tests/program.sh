#!/usr/bin/env bash
# Runs the program, whose path is the argument, in folders of its own and compares what it prints,
# byte for byte, with the lines that REFERENCE, section 14, gives. That the line is the right one
# for every sheet and text is proved; that files are read and the line is printed is tested here.
set -euo pipefail

if [ $# -ne 1 ]; then
    echo "usage: tests/program.sh PROGRAM" >&2
    exit 1
fi
program=$(realpath "$1")
work=$(mktemp -d)
trap 'rm -rf "$work"' EXIT

# Numbers below 256, as bytes.
bytes() {
    local n
    for n in "$@"; do
        printf "\\$(printf '%03o' "$n")"
    done
}

# A text of so many bytes, each the given one.
repeated() {
    head -c "$1" /dev/zero | tr '\0' "$2"
}

# Sheet D: three rules, 20 bytes with the header, and then the expression.
rules="1 2 3 1 2 1 48 57 4 1 48 57 2 1 47 47 0 1 32 32"
expression="3 2 0 5 4 0 3 2 1 3 2 0 6 0"
bytes $rules $expression >"$work/D"
# N ∨ N, whose parts are not apart: 10 at its tag.
bytes $rules 4 2 0 2 0 >"$work/twice"
# A byte is left over after the expression: 6 at that byte.
bytes $rules $expression 0 >"$work/longer"
# A byte more than a sheet may have.
repeated 4097 '\1' >"$work/over"

count=0
wrong=0

# expect LINE SHEET: the program's line for a sheet, or for none where it is `-`, and the text that
# stands in $work/text, or none where that file is missing.
expect() {
    local folder="$work/case"
    rm -rf "$folder"
    mkdir "$folder"
    if [ "$2" != "-" ]; then
        cp "$work/$2" "$folder/sheet"
    fi
    if [ -e "$work/text" ]; then
        cp "$work/text" "$folder/text"
    fi
    printf '%s\n' "$1" >"$work/expected"
    (cd "$folder" && "$program") >"$work/printed" || true
    if cmp -s "$work/expected" "$work/printed"; then
        count=$((count + 1))
    else
        echo "program: expected '$1', printed '$(cat "$work/printed")'" >&2
        wrong=1
    fi
}

# read_as LINE SHEET TEXT
read_as() {
    printf '%s' "$3" >"$work/text"
    expect "$1" "$2"
}

read_as 'accepted 3' D '12/7'
read_as 'accepted 3' D '12 /7'
read_as 'text 14 2' D '12h'
read_as 'text 15 3' D '12//7'
read_as 'text 15 10' D '12/34/567//'
read_as 'text 16 3' D '12/'
read_as 'sheet 10 20' twice '12/7'
read_as 'sheet 6 34' longer '12/7'
read_as 'sheet 2 0' over '12/7'

# The longest text, one number; and one with the most tokens.
repeated 2048 1 >"$work/text"
expect 'accepted 1' D
repeated 2047 1 | sed 's/11/1\//g' >"$work/text"
expect 'accepted 2047' D
# A longer text is refused, once the sheet has passed.
repeated 2049 1 >"$work/text"
expect 'text 12 0' D
expect 'sheet 10 20' twice

# A missing file counts as empty.
read_as 'sheet 3 0' - '12/7'
rm "$work/text"
expect 'text 16 0' D
expect 'sheet 3 0' -

if [ "$wrong" -ne 0 ]; then
    exit 1
fi
echo "program: $count lines as expected"
