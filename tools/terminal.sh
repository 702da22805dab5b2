#!/bin/sh
# Runs the program (PROGRAM ARGUMENTS ..) where standard error is a terminal, and says there what a person needs to know
# about its arguments, streams and status. Never writes to output; ends with the program's status. Needs tail and grep.
program=$1
shift

say() {
    printf 'abcps: %s\n' "$*" >&2
}

# Returns whether an argument names a file.
names_file() {
    for word in "$@"; do
        [ ! -f "$word" ] || return 0
        case $word in *.abc | *.ABC | *.ps) return 0 ;; esac
    done
    return 1
}

# Returns whether a document without a page was written, as far as output or input is a file that can be looked at.
# Output is at descriptor 3 and input at 4, since a pipe takes the places of both here.
is_empty() {
    if [ -f /dev/fd/3 ]; then
        [ "$(tail -c 17 /dev/fd/3 2>/dev/null)" = "$(printf '%%%%Pages: 0\n%%%%EOF')" ]
    else
        [ -f /dev/fd/4 ] && ! LC_ALL=C grep -qa -e '^X:' -e "^$(printf '\357\273\277')X:" /dev/fd/4 2>/dev/null
    fi
}

if ! names_file "$@"; then
    case ${1-} in
    set | systems | inspect | check | paint | hear)
        [ ! -t 0 ] || say "reads from the terminal; Ctrl-D ends the input. Usually: abcps $1 < INPUT > OUTPUT"
        ;;
    esac
    [ "${1-}" != set ] || [ ! -t 1 ] ||
        say "writes PostScript to the terminal; for a file: abcps set < tune.abc > page.ps"
fi

exec 3>&1 4<&0
"$program" "$@" 3>&- 4<&-
status=$?

case $status in
0) [ "${1-}" != set ] || ! is_empty ||
    say "no tune found: a tune begins with a line 'X:1'; is the file UTF-16, or does it have CR line ends?" ;;
2) ! names_file "$@" || say "reads standard input, no file by name: abcps set < tune.abc > page.ps" ;;
3) say "the input could not be read (status 3); nothing was written" ;;
4) say "the output could not be written (status 4): is the disk full, or the pipe closed?" ;;
5) say "out of memory (status 5); fewer jobs or a smaller book need less" ;;
7) say "the input is too long (status 7): a book has at most 8,388,608 bytes; set it in parts" ;;
esac
exit "$status"
