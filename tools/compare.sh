#!/bin/sh
# Compares the program with another one that takes the same arguments; needs the kit, or a program that is built.
#
# usage: tools/compare.sh 'OTHER PROGRAM AND ITS FIRST WORDS' BOOK..
#
# For each book it compares output, standard error and status under `set`, `set --flow`, `systems` and
# `systems --table`. Prints a line for each difference and how many runs it compared, and ends with 1 if some differ.
set -u

case ${1---help} in -h | --help) sed -n '2,/^set/s/^# \{0,1\}//p' "$0"; exit ;; esac
root=$(cd "$(dirname "$0")/.." && pwd)
other=$1
shift
"$root/abcps" make 1 >/dev/null || exit 2
folder=$(mktemp -d)
trap 'rm -rf "$folder"' EXIT
runs=0
differ=0
for book in "$@"; do
    for words in "set" "set --flow" "systems" "systems --table"; do
        # shellcheck disable=SC2086
        "$root/abcps" $words <"$book" >"$folder/own.out" 2>"$folder/own.err"
        own=$?
        # shellcheck disable=SC2086
        $other $words <"$book" >"$folder/other.out" 2>"$folder/other.err"
        theirs=$?
        runs=$((runs + 1))
        if [ "$own" != "$theirs" ] || ! cmp -s "$folder/own.out" "$folder/other.out" ||
            ! cmp -s "$folder/own.err" "$folder/other.err"; then
            echo "differs: $words of $book (statuses $own and $theirs)"
            differ=$((differ + 1))
        fi
    done
done
echo "$runs runs compared, $differ differ"
[ "$differ" = 0 ]
