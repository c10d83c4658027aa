#!/usr/bin/env bash
# Measures the lexer: MB/s of `tokenize` over a text, and the number of tokens.
#
# Use: lexer.sh [TEXT]      TEXT is a file; without it, statements.sql beside this script. It is repeated up to 10 MB.
#
# The program that measures is written, with the lexer, to a temporary folder, and is proved and built there. It goes
# over the tokens of the text twenty times, and prints the rate of the fastest round in processor time. The time of the
# loop itself, with its sum over lengths and kinds, is in the figure.
set -eu
here=$(CDPATH='' cd -- "$(dirname -- "${BASH_SOURCE[0]}")/.." && pwd)
text=$(realpath "${1:-$here/bench/statements.sql}")
folder=$(mktemp -d)
trap 'rm -rf "$folder"' EXIT

# A short text is repeated, so that a round takes long enough to be measured.
cp "$text" "$folder/text"
while [ -s "$folder/text" ] && [ "$(stat -c %s "$folder/text")" -lt 10000000 ]; do
  cat "$folder/text" "$folder/text" > "$folder/twice"
  mv "$folder/twice" "$folder/text"
done

mkdir -p "$folder/crates/bench_lexer/src" "$folder/crates/squawk_lexer"
for part in src specs proofs; do
  cp -r "$here/crates/squawk_lexer/$part" "$folder/crates/squawk_lexer/"
done
grep "^squawk_lexer:" "$here/crates.txt" > "$folder/crates.txt"
echo "bench_lexer: squawk_lexer" >> "$folder/crates.txt"
cat > "$folder/crates/bench_lexer/src/main.rt" <<'END'
//! Measures the lexer over the text on standard input.
#![tactic(auto)]

ghost use Rattle.std.specs.Prelude.{◌<◌, ◌^◌, length};

use squawk_lexer::{TokenKind, tokenize};
use std::io;
use std::rt::CpuClock;
use std::time::Duration;

// The number of times that the text is cut into tokens.
const ROUNDS: usize = 20;

// A time that no round takes, in seconds.
const LONGEST: u64 = 1_000_000;

fn main(rt: HostRuntime) -> io::Result<()> {
    let text = io::read_to_string(rt.alloc(), rt.stdin())?;
    if text.len() > u32::MAX as usize {
        println!(rt; "a text of 4 GiB or more has no tokens")?;
        return Ok(());
    }
    let mut least = Duration::from_secs(LONGEST);
    let mut counts = (0, 0);
    for _round in 0..ROUNDS {
        let start = rt.thread_cpu_time()?;
        counts = count_tokens(&text);
        let end = rt.thread_cpu_time()?;
        least = least.min(end.saturating_sub(start));
    }
    let (tokens, sum) = counts;
    let nanoseconds = least.as_nanos().max(1);
    let rate = text.len() as u128 * 1000 / nanoseconds;
    println!(rt; "{} bytes, {tokens} tokens: {rate} MB/s (sum {sum})", text.len())?;
    Ok(())
}

// The number of tokens, and a sum over their lengths and kinds, so that none is left out.
fn count_tokens(text: &str) -> (u64, u64)
    requires { length text.now < 2 ^ 32 }
{
    let mut tokens: u64 = 0;
    let mut sum: u64 = 0;
    for token in tokenize(text) {
        let len = token.len as u64;
        tokens = tokens.wrapping_add(1);
        sum = sum.wrapping_add(len.wrapping_mul(len));
        if matches!(token.kind, TokenKind::Ident) {
            sum = sum.wrapping_add(1);
        }
    }
    (tokens, sum)
}
END
(cd "$folder/crates/bench_lexer" && rt run < "$folder/text")
