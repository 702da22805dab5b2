#!/bin/sh
# Answers abcps --help, abcps help COMMAND and abcps --version from the one page help.txt beside it; needs awk.
here=$(dirname "$0")
case ${1-}${2+ }${2-} in
'help '?*)
    awk -v name="$2" '
        /^[A-Z]/ { commands = $0 == "COMMANDS" }
        commands && /^  [a-z]/ { named = $1 == name }
        commands && named { print; found = 1 }
        END { exit !found }' "$here/help.txt" && exit
    echo "abcps: no command '$2'; abcps --help lists them" >&2
    exit 2
    ;;
--version)
    kit=$(cat "$here/kit" 2>/dev/null || rt version 2>/dev/null) || kit="unknown: rt is not on the path"
    echo "abcps"
    echo "kit: $kit"
    ;;
*) cat "$here/help.txt" ;;
esac
