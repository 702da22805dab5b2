#!/usr/bin/env bash
# Counts the work of setting tunes that grow: twice the measures, up to 2,000 (goal: at most 2.10 times the work each
# time); 16 voices of 120 measures (goal: 170 million instructions); and 500 measures under eight verses (goal: 250
# million). Counts instructions by callgrind, or where that isn't there milliseconds of user time.
set -eu

root=$(cd "$(dirname "$0")/.." && pwd)
"$root/abcps" make 1 >/dev/null
program=$root/crates/abcps_main/out/abcps_main
folder=$(mktemp -d)
trap 'rm -rf "$folder"' EXIT

if command -v valgrind >/dev/null; then
    unit="million instructions"
    work() {
        valgrind --tool=callgrind --callgrind-out-file=/dev/null "$program" set <"$1" 2>&1 >/dev/null |
            awk '/Collected/ { printf "%.1f", $NF / 1000000 }'
    }
else
    unit="ms"
    work() {
        for _ in 1 2 3; do
            /usr/bin/time -f %U -o "$folder/time" "$program" set <"$1" >/dev/null
            awk '{ print $1 * 1000 }' "$folder/time"
        done | sort -n | head -n 1
    }
fi

before=
for measures in 125 250 500 1000 2000; do
    "$root/bench/growing_book.py" "$measures" 1 0 >"$folder/book.abc"
    now=$(work "$folder/book.abc")
    ratio=$(awk -v a="$now" -v b="${before:-0}" 'BEGIN { if (b > 0) printf ", ratio %.2f (goal: 2.10)", a / b }')
    echo "$measures measures: $now $unit$ratio"
    before=$now
done
"$root/bench/growing_book.py" 120 16 0 >"$folder/book.abc"
echo "16 voices of 120 measures: $(work "$folder/book.abc") $unit (goal: 170 million instructions)"
"$root/bench/growing_book.py" 500 1 8 >"$folder/book.abc"
echo "500 measures under eight verses: $(work "$folder/book.abc") $unit (goal: 250 million instructions)"
