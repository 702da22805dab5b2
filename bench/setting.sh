#!/usr/bin/env bash
# Times the setting of generated books, and prints ratios: of 500 tunes to 200, with and without --flow; of one job to
# four; the most memory that setting 500 tunes takes, by one job and by four, and for the trial; and where abcm2ps is installed, of a tune of the book to what
# abcm2ps takes to set one, each started for one tune alone, and of both programs on the book as a whole.
set -eu

root=$(cd "$(dirname "$0")/.." && pwd)
"$root/abcps" make 1 >/dev/null
program=$root/crates/abcps_main/out/abcps_main
folder=$(mktemp -d)
trap 'rm -rf "$folder"' EXIT
"$program" make 1 >"$folder/1.abc"
"$program" make 500 >"$folder/500.abc"

# The least of three times of so many runs, in milliseconds of user and system time.
least() {
    count=$1
    shift
    for _ in 1 2 3; do
        # shellcheck disable=SC2016
        /usr/bin/time -f "%U %S" -o "$folder/time" sh -c \
            'n=$1; shift; while [ "$n" -gt 0 ]; do "$@" >/dev/null 2>&1; n=$((n - 1)); done' sh "$count" "$@"
        awk '{ print ($1 + $2) * 1000 }' "$folder/time"
    done | sort -n | head -n 1
}

# The least of three times by the clock, in milliseconds.
least_clock() {
    for _ in 1 2 3; do
        /usr/bin/time -f %e -o "$folder/time" "$@" >/dev/null 2>&1
        awk '{ print $1 * 1000 }' "$folder/time"
    done | sort -n | head -n 1
}

ratio() { awk -v a="$1" -v b="$2" 'BEGIN { printf "%.2f", (b > 0 ? a / b : 0) }'; }

for flow in "" "--flow"; do
    # shellcheck disable=SC2086
    small=$(least 1 "$program" trial 200 $flow)
    # shellcheck disable=SC2086
    large=$(least 1 "$program" trial 500 $flow)
    echo "trial ${flow:-by lines}: 200 tunes $small ms, 500 tunes $large ms, ratio $(ratio "$large" "$small") (2.50 is linear)"
done
one=$(least_clock "$program" trial 500 --jobs 1)
four=$(least_clock "$program" trial 500 --jobs 4)
echo "jobs: one $one ms, four $four ms, ratio $(ratio "$one" "$four")"
for words in "set" "set --jobs 4" "trial 500"; do
    # shellcheck disable=SC2086
    /usr/bin/time -f %M -o "$folder/memory" "$program" $words <"$folder/500.abc" >/dev/null
    echo "memory of $words on 500 tunes: $(($(cat "$folder/memory") / 1024)) MB"
done
if command -v abcm2ps >/dev/null; then
    for flow in "" "--flow"; do
        other=${flow:+-c}
        # shellcheck disable=SC2086
        own=$(least 20 sh -c "'$program' set $flow <'$folder/1.abc'")
        # shellcheck disable=SC2086
        theirs=$(least 20 abcm2ps -q $other -O "$folder/other.ps" "$folder/1.abc")
        echo "one tune ${flow:-by lines}, 20 runs: abcm2ps $theirs ms, abcps $own ms, ratio $(ratio "$own" "$theirs")"
        # shellcheck disable=SC2086
        own=$(least 1 sh -c "'$program' set $flow <'$folder/500.abc'")
        # shellcheck disable=SC2086
        theirs=$(least 1 abcm2ps -q $other -O "$folder/other.ps" "$folder/500.abc")
        echo "500 tunes ${flow:-by lines}: abcm2ps $theirs ms, abcps $own ms, ratio $(ratio "$own" "$theirs")"
    done
fi
