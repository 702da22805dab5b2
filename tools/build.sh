#!/bin/sh
# Builds the program for the launcher if its sources changed. The stamp beside it keeps a sum of all sources.
# tools/keep.py proves all crates in parallel and builds the program aside; with a kit that it doesn't fit, the kit's
# rt run proves them one after another. A failed build leaves the program that was there. Reports progress on standard
# error. Needs the Rattle kit (rt) and Python 3.
set -eu
root=$(cd "$(dirname "$0")/.." && pwd)
program=$root/crates/abcps_main/out/abcps_main
stamp=$program.stamp

say() {
    echo "abcps: $*" >&2
}

sources() {
    find crates.txt HANDLES crates -name out -prune -o -type f \
        \( -name '*.rt' -o -name '*.antt' -o -name crates.txt -o -name HANDLES \) "$@" -print
}

sum_of_sources() {
    sources | LC_ALL=C sort | xargs sha256sum | sha256sum
}

# Returns whether the program is of these sources: by the stamp, or if the gate built the program after the stamp was
# written, by the files' times.
is_current() {
    [ -x "$program" ] || return 1
    if [ -f "$stamp" ] && [ "$(cat "$stamp")" = "$sum" ]; then return 0; fi
    [ -z "$(find "$stamp" -newer "$program" 2>/dev/null)" ] && [ -z "$(sources -newer "$program" | head -n 1)" ]
}

# Shows the lines of the build that say how far it is, and keeps all of them.
follow() {
    while IFS= read -r line; do
        printf '%s\n' "$line" >>"$log"
        case $line in "crate "* | "all crates "*) say "$line" ;; esac
    done
}

# Proves all crates in parallel, and builds.
build_in_parallel() {
    { python3 tools/keep.py build abcps_main 2>&1 || echo "status $?"; } | follow
    ! grep -q '^status ' "$log"
}

# Proves one crate after another, and builds in place, for a kit that doesn't fit tools/keep.py.
build_in_turn() {
    ! grep -q "isn't proved" "$log" || return 1
    [ ! -x "$program" ] || mv -f "$program" "$program.before"
    (cd crates/abcps_main && rt run </dev/null) >>"$log" 2>&1 || true
    [ -x "$program" ]
}

clean() {
    rm -f "$log"
    [ ! -f "$program.before" ] || [ -x "$program" ] || mv -f "$program.before" "$program"
    rm -f "$program.before"
}

cd "$root"
mkdir -p "$(dirname "$stamp")"
if command -v flock >/dev/null; then
    exec 9>"$stamp.lock"
    flock 9
fi
sum=$(sum_of_sources)
if ! is_current; then
    log=$(mktemp)
    trap clean EXIT
    trap 'exit 69' INT TERM HUP
    say "the program isn't built, or its sources changed: all crates are proved in parallel, then it is built"
    say "a first build takes about half an hour on four processors, an hour on two; later only what changed is proved"
    say "meanwhile ./look FILE > page.ps writes a first page in a minute and a half, without proof"
    if ! build_in_parallel && ! build_in_turn; then
        say "the program could not be built; the last lines of the build:"
        tail -n 20 "$log" >&2
        exit 69
    fi
    say "built"
fi
printf '%s\n' "$sum" >"$stamp"
