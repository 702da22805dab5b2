#!/bin/sh
# Installs abcps: install.sh [PREFIX], /usr/local without PREFIX. Builds the program first if need be. Puts abcps,
# abcpdf, abchints and abcbatch in PREFIX/bin, the program in PREFIX/lib/abcps, the man page and the completion for bash
# in PREFIX/share. Needs Python 3, and the Rattle kit (rt) to build.
set -eu

case ${1-} in
-h | --help)
    sed -n '2,/^set/s/^# //p' "$0"
    exit
    ;;
-*)
    echo "usage: install.sh [PREFIX]" >&2
    exit 2
    ;;
esac
root=$(cd "$(dirname "$0")" && pwd)
prefix=${1:-/usr/local}
"$root/abcps" make 1 >/dev/null
share=$prefix/share/abcps
mkdir -p "$prefix/bin" "$prefix/lib/abcps" "$share" "$prefix/share/man/man1" "$prefix/share/bash-completion/completions"
cp "$root/crates/abcps_main/out/abcps_main" "$prefix/lib/abcps/abcps.new"
mv -f "$prefix/lib/abcps/abcps.new" "$prefix/lib/abcps/abcps"
for name in abcps abcpdf abchints abcbatch; do
    rm -f "$prefix/bin/$name"
    cp "$root/$name" "$prefix/bin/$name"
done
cp "$root/tools/help.txt" "$root/tools/help.sh" "$root/tools/terminal.sh" "$root/tools/abcbook.py" "$share"
rt version >"$share/kit" 2>/dev/null || rm -f "$share/kit"
python3 "$root/tools/man.py" >"$prefix/share/man/man1/abcps.1"
for name in abcps abcpdf abchints abcbatch; do
    cp "$root/tools/completion.bash" "$prefix/share/bash-completion/completions/$name"
done
echo "installed abcps, abcpdf, abchints and abcbatch in $prefix/bin"
