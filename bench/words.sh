#!/usr/bin/env bash
# Measures the look-up of keywords: nanoseconds a call over the words of a text, for keywords, for other words, and for
# all words in the order of the text.
#
# Use: words.sh [TEXT]      TEXT is a file; without it, statements.sql beside this script. It is repeated up to 10 MB.
#
# The program that measures is written, with the crates that it needs, to a temporary folder, and is proved and built
# there. It goes over the keywords, over the other words and over all of them twenty times each, and prints the time of
# the fastest round, by the clock, divided by the number of its words. The time of the loop itself, with its sum, is in
# the figure. Words of one kind alone, or those of a short text again and again, are easy for a processor's branch
# prediction: a long text in its own order is what a parse sees.
set -eu
here=$(CDPATH='' cd -- "$(dirname -- "${BASH_SOURCE[0]}")/.." && pwd)
text=$(realpath "${1:-$here/bench/statements.sql}")
folder=$(mktemp -d)
trap 'rm -rf "$folder"' EXIT

# A short text is repeated, so that a round takes long enough to be measured.
cp "$text" "$folder/text"
while [ -s "$folder/text" ] && [ "$(stat -c %s "$folder/text")" -lt 10000000 ]; do
  cat "$folder/text" "$folder/text" > "$folder/twice"
  mv "$folder/twice" "$folder/text"
done

mkdir -p "$folder/crates/bench_words/src"
for crate in squawk_names squawk_kinds squawk_words; do
  mkdir "$folder/crates/$crate"
  cp -r "$here/crates/$crate/src" "$here/crates/$crate/specs" "$here/crates/$crate/proofs" "$folder/crates/$crate/"
  grep "^$crate:" "$here/crates.txt" >> "$folder/crates.txt"
done
echo "bench_words: squawk_kinds squawk_words" >> "$folder/crates.txt"
cat > "$folder/crates/bench_words/src/main.rt" <<'END'
//! Measures the look-up of keywords over the words of the text on standard input.
#![tactic(auto)]

use squawk_words::from_keyword;
use std::io;
use std::rt::Clock;
use std::time::Instant;

// The number of rounds with keywords, with other words and with all words.
const ROUNDS: usize = 20;

fn main(rt: HostRuntime) -> io::Result<()> {
    let text = io::read_to_string(rt.alloc(), rt.stdin())?;
    let mut keywords: Vec<&str> = Vec::new(rt.alloc());
    let mut others: Vec<&str> = Vec::new(rt.alloc());
    let mut all: Vec<&str> = Vec::new(rt.alloc());
    for word in text.as_str().split(|c: char| !(c.is_ascii_alphanumeric() || c == '_')) {
        if word.len() > 0 {
            all.push(word)?;
        }
        if from_keyword(word).is_some() {
            keywords.push(word)?;
        } else if word.len() > 0 {
            others.push(word)?;
        }
    }
    report(&rt, "keywords", &keywords)?;
    report(&rt, "other words", &others)?;
    report(&rt, "all words in order", &all)
}

// Prints how long a call takes over these words.
fn report<R: Print + Clock>(rt: &R, title: &str, words: &[&str]) -> io::Result<()> {
    if words.is_empty() {
        println!(rt; "{title}: none")?;
        return Ok(());
    }
    let mut least = u128::MAX;
    let mut sum = 0;
    for _round in 0..ROUNDS {
        let start = Instant::now(rt)?;
        sum = look_up_all(words);
        least = least.min(start.elapsed(rt)?.as_nanos());
    }
    let tenths = least.saturating_mul(10) / words.len() as u128;
    println!(rt; "{title}: {} words, {}.{} ns a call (sum {sum})", words.len(), tenths / 10, tenths % 10)?;
    Ok(())
}

// The sum of the numbers of the kinds found, so that no call is left out.
fn look_up_all(words: &[&str]) -> u64 {
    let mut sum: u64 = 0;
    for word in words {
        if let Some(kind) = from_keyword(*word) {
            sum = sum.wrapping_add(kind.to_raw() as u64);
        }
    }
    sum
}
END
(cd "$folder/crates/bench_words" && rt run < "$folder/text")
