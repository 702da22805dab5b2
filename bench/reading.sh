#!/usr/bin/env bash
# Times the reading of books and of music lines, each at a size and at twice that size: the second time is to be about
# twice the first, whatever the bytes are. No command of the program reads a line alone, so a small program over the
# crates is proved and built in a folder of its own; what earlier checks kept in out/ is used.
set -eu

root=$(cd "$(dirname "$0")/.." && pwd)
folder=$(mktemp -d)
trap 'rm -rf "$folder"' EXIT
mkdir -p "$folder/crates/bench_reading/src"
cd "$folder"
git init -q .
for crate in mus_units abc_lines abc_notes abc_pieces abc_music eng_io; do
    cp -r "$root/crates/$crate" crates/
    grep "^$crate:" "$root/crates.txt" >> crates.txt
done
echo "bench_reading: mus_units abc_lines abc_notes abc_pieces abc_music eng_io" >> crates.txt
cat > crates/bench_reading/src/main.rt <<'E'
//! Reads a book, or a music line, from standard input, and prints what it found.
#![tactic(auto)]

use abc_lines::{Line, TuneError, cut_book};
use abc_music::read_music;
use eng_io::{StdSource, read_all};
use mus_units::Text;
use std::process::ExitCode;
use std::{env, io};

fn main(rt: HostRuntime) -> io::Result<ExitCode> {
    let mut source = StdSource::new(rt.stdin());
    let Ok(text) = read_all(rt.alloc(), &mut source, 100_000_000) else {
        return Ok(ExitCode::from(3));
    };
    if text.len() > 100_000_000 {
        return Ok(ExitCode::from(7));
    }
    if env::args(&rt)?.skip(1).count() > 0 {
        let Ok(book) = cut_book(rt.alloc(), text.as_slice()) else {
            return Ok(ExitCode::from(5));
        };
        println!(rt; "tunes {}", book.tunes.len())?;
        return Ok(ExitCode::from(0));
    }
    let line = Line { number: 1, text };
    match read_music(rt.alloc(), &line, false) {
        Ok(tokens) => println!(rt; "tokens {}", tokens.len())?,
        Err(TuneError::Fault(fault)) => println!(rt; "fault at column {}", fault.column)?,
        Err(TuneError::Memory) => return Ok(ExitCode::from(5)),
    }
    Ok(ExitCode::from(0))
}
E
(cd crates/bench_reading && rt run < /dev/null > "$folder/log" 2>&1) || { tail -n 20 "$folder/log"; exit 1; }
program=$folder/crates/bench_reading/out/bench_reading

# So many bytes of a text over and over.
repeated() {
    yes "$2" | tr -d '\n' | head -c "$1"
}

for size in 524288 1048576; do
    for text in '(' '[' '{' '"' '"a"' '!' 'A' '[CE]' '[A!b]' '{A!b}' '{[A!b]c' '{[A!b}c' '[!' '(3abc' '>' '|' '[K:C]'; do
        repeated "$size" "$text" > "$folder/input"
        printf '%-8s %8d bytes: ' "$text" "$size"
        start=$(date +%s%N)
        "$program" < "$folder/input" | tr '\n' ' '
        echo "in $((($(date +%s%N) - start) / 1000000)) ms"
    done
done
for size in 4194304 8388608; do
    yes "$(printf 'X:1\nT:A tune %% a comment\nK:C\nCDEF GABc|cBAG FEDC|\n\n')" | head -c "$size" > "$folder/input"
    printf '%-8s %8d bytes: ' book "$size"
    start=$(date +%s%N)
    "$program" book < "$folder/input" | tr '\n' ' '
    echo "in $((($(date +%s%N) - start) / 1000000)) ms"
done
