#!/bin/sh
# Compares the speed of reading and printing numbers: the C library's, and ours
# if its program is built.
set -eu

cd "$(dirname "$0")"
ours=../crates/try_library/out/try_library
count=${COUNT:-1000000}
literals=data/numbers-$count.txt

mkdir -p data
# Written under another name first, so that a stopped run leaves no half file.
if [ ! -s "$literals" ] || [ literals.py -nt "$literals" ] || [ number_lines.py -nt "$literals" ]; then
    python3 number_lines.py --count "$count" > "$literals.part"
    mv "$literals.part" "$literals"
fi
"${CC:-cc}" -O2 -Wall -Wextra -o data/numbers numbers.c

./data/numbers "$literals" > data/numbers-lines.txt
if [ -x "$ours" ]; then
    "$ours" numbers < "$literals" 2>> data/numbers-lines.txt
else
    echo "try_library is not built: left out" >&2
fi
awk '
    BEGIN { print "| what | million numbers a second |"; print "|---|---|" }
    NF == 3 && $3 == "million/s" { print "| " $1 " | " $2 " |"; next }
    { print "not understood: " $0 > "/dev/stderr" }
' data/numbers-lines.txt
