#!/usr/bin/env bash
# Times inspect and paint on documents of so many megabytes (1 and 8 by default): the page of one measure, over and
# over; and paint on programs as long, whose path grows by a piece before each of its gsaves. Each second time is to
# be about eight times the first, and paint is to take at most 20 times as long as inspect.
set -eu

root=$(cd "$(dirname "$0")/.." && pwd)
program="$root/abcps"
document=$(mktemp)
trap 'rm -f "$document"' EXIT

# A document of so many bytes, from one of a single page.
many_pages() {
    awk -v bytes="$1" '
        /^%%Page: /   { in_page = 1; next }
        /^%%Trailer$/ {
            pages = int(bytes / (length(page) + 20))
            for (k = 1; k <= pages; k++) printf "%%%%Page: %d %d\n%s", k, k, page
            in_page = 0
        }
        /^%%Pages: [0-9]/ { printf "%%%%Pages: %d\n", pages; next }
        in_page       { page = page $0 "\n"; next }
                      { print }
    '
}

# How many milliseconds a command takes on the document.
took() {
    from=$(date +%s%N)
    "$program" "$1" < "$document" > /dev/null
    echo $((($(date +%s%N) - from) / 1000000))
}

# A program of so many bytes, whose path grows by a piece and is saved, over and over.
many_saved() {
    awk -v bytes="$1" 'BEGIN { for (k = 0; k < bytes; k += 17) print "1 2 moveto gsave" }'
}

[ $# -gt 0 ] || set -- 1 8
for size in "$@"; do
    "$program" set < "$root/examples/one-measure.abc" | many_pages "${size}000000" > "$document"
    echo "$size MB of pages: inspect $(took inspect) ms, paint $(took paint) ms"
    many_saved "${size}000000" > "$document"
    echo "$size MB of a path that is saved: paint $(took paint) ms"
done
