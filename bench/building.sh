#!/usr/bin/env bash
# Times the way from a book to the scores of its tunes, for one tune of many notes at a size and at twice that size: the
# second time is to be about twice the first, whatever stands in the lines. No command of the program makes a score
# alone, so a small program over the crates is proved and built in a folder of its own; what earlier checks kept in
# out/ is used.
set -eu

root=$(cd "$(dirname "$0")/.." && pwd)
folder=$(mktemp -d)
trap 'rm -rf "$folder"' EXIT
mkdir -p "$folder/crates/bench_building/src"
cd "$folder"
git init -q .
crates="mus_units mus_pitch mus_score mus_lyric abc_lines abc_notes abc_pieces abc_music abc_field abc_fields abc_steps abc_items abc_signs abc_events abc_faults abc_words abc_score eng_io"
for crate in $crates; do
    cp -r "$root/crates/$crate" crates/
    grep "^$crate:" "$root/crates.txt" >> crates.txt
done
echo "bench_building: mus_units mus_score abc_lines abc_field abc_fields abc_score eng_io" >> crates.txt
cat > crates/bench_building/src/main.rt <<'E'
//! Reads a book from standard input, and prints what each tune's score has, or its fault.
#![tactic(auto)]

ghost use Rattle.abc_lines.specs.Good.{IsGoodTune};
ghost use Rattle.abc_fields.specs.Good.{IsGoodDefaults};

use abc_fields::{Defaults, read_defaults, read_header};
use abc_lines::{TuneError, TuneText, cut_book};
use abc_score::build;
use eng_io::{StdSource, read_all};
use mus_score::weights_within;
use std::alloc::Global;
use std::io;
use std::process::ExitCode;

/// A tune's measures, and the heads and rests of the last; or the line of its fault.
fn measured(alloc: Global, tune: &TuneText, defaults: &Defaults) -> Result<(u32, u64), TuneError>
    requires tune { IsGoodTune tune.now }
    requires defaults { IsGoodDefaults defaults.now }
{
    let header = read_header(alloc, tune, defaults)?;
    let score = build(alloc, &header, tune, false)?;
    let mut last = 0;
    for voice in score.voices.as_slice() {
        for measure in voice.measures.as_slice() {
            last = weights_within(measure.body.as_slice());
        }
    }
    Ok((score.measures, last))
}

fn main(rt: HostRuntime) -> io::Result<ExitCode> {
    let mut source = StdSource::new(rt.stdin());
    let Ok(text) = read_all(rt.alloc(), &mut source, 100_000_000) else {
        return Ok(ExitCode::from(3));
    };
    if text.len() > 100_000_000 {
        return Ok(ExitCode::from(7));
    }
    let Ok(book) = cut_book(rt.alloc(), text.as_slice()) else {
        return Ok(ExitCode::from(5));
    };
    let Ok(defaults) = read_defaults(rt.alloc(), &book) else {
        return Ok(ExitCode::from(5));
    };
    for tune in book.tunes.as_slice() {
        match measured(rt.alloc(), tune, &defaults) {
            Ok((measures, last)) => println!(rt; "measures {measures}, the last of {last}")?,
            Err(TuneError::Fault(fault)) => println!(rt; "fault at line {} column {}", fault.line, fault.column)?,
            Err(TuneError::Memory) => println!(rt; "no memory")?,
        }
    }
    Ok(ExitCode::from(0))
}
E
(cd crates/bench_building && rt run < /dev/null > "$folder/log" 2>&1) || { grep -v "^statements\|^library" "$folder/log" | tail -n 30; exit 1; }
program=$folder/crates/bench_building/out/bench_building

# A tune of so many lines.
tune() {
    printf 'X:1\nM:4/4\nL:1/8\nK:G\n'
    yes "$2" | head -n "$1"
}

# A measure a line; a tune has at most 2,000 measures and 50,000 heads and rests.
for lines in 1000 2000; do
    for text in 'CDEF GABc cBAG FEDC CDEF GABc|' '(3CDE (3FGA {c}B>c d-d (ABcd) efga|' '[CEG]2 [DFA]2 "Am"A4 !trill!A2 z2 .B2 c2 CDEFGABc|'; do
        tune "$lines" "$text" > "$folder/input"
        printf '%-52s %5d lines: ' "$text" "$lines"
        start=$(date +%s%N)
        "$program" < "$folder/input" | tr '\n' ' '
        echo "in $((($(date +%s%N) - start) / 1000000)) ms"
    done
done
