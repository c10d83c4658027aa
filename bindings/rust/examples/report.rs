//! Reads a script on standard input, and prints the report of the program, or its tokens.
//!
//! Use: `report [--backslash] [--grouped] [tokens] < FILE`
//!
//! A line of `tokens` is KIND FLAGS START LEN JUNK, in numbers. The status is 4 if the input is not
//! UTF-8, 5 if it is too long, 6 if memory runs out, and 1 for any other failure.
use squawk::{Action, Division, Error, Options, Strings, parse, tokenize};
use std::env;
use std::error;
use std::io::{BufWriter, Read, Write, stdin, stdout};
use std::process::ExitCode;

fn main() -> ExitCode {
    match run() {
        Ok(()) => ExitCode::SUCCESS,
        Err(error) => {
            eprintln!("report: {error}");
            ExitCode::from(status_of(&*error))
        }
    }
}

/// The status that the program has for this error.
fn status_of(error: &(dyn error::Error + 'static)) -> u8 {
    if error.is::<std::string::FromUtf8Error>() {
        return 4;
    }
    match error.downcast_ref() {
        Some(Error::TooLong) => 5,
        Some(Error::OutOfMemory) => 6,
        _ => 1,
    }
}

fn run() -> Result<(), Box<dyn error::Error>> {
    let mut words = env::args().skip(1).peekable();
    let mut options = Options::default();
    if words.next_if(|word| word == "--backslash").is_some() {
        options.strings = Strings::Backslash;
    }
    if words.next_if(|word| word == "--grouped").is_some() {
        options.division = Division::Grouped;
    }
    let wants_tokens = words.next_if(|word| word == "tokens").is_some();
    if words.next().is_some() {
        return Err("bad words".into());
    }
    let mut bytes = Vec::new();
    stdin().read_to_end(&mut bytes)?;
    let text = String::from_utf8(bytes)?;
    let mut out = BufWriter::new(stdout().lock());
    if wants_tokens {
        print_tokens(&mut out, &text, options)?;
    } else {
        print_report(&mut out, &text, options)?;
    }
    Ok(out.flush()?)
}

fn print_tokens(
    out: &mut impl Write,
    text: &str,
    options: Options,
) -> Result<(), Box<dyn error::Error>> {
    for token in tokenize(text, options)? {
        let (kind, flags) = token.numbers();
        let range = token.range();
        let junk = token.trailing_junk_start().unwrap_or(0);
        writeln!(out, "{kind} {flags} {} {} {junk}", range.start, range.len())?;
    }
    Ok(())
}

fn print_report(
    out: &mut impl Write,
    text: &str,
    options: Options,
) -> Result<(), Box<dyn error::Error>> {
    let parse = parse(text, options)?;
    let mut depth = 0;
    for step in parse.steps() {
        let Some(kind) = step.kind() else {
            depth -= 1;
            continue;
        };
        let is_node = step.action() == Action::Enter;
        let letter = if is_node { 'N' } else { 'T' };
        let range = step.range();
        writeln!(
            out,
            "{depth} {letter} {kind} {}..{}",
            range.start, range.end
        )?;
        depth += u32::from(is_node);
    }
    for error in parse.errors() {
        let range = error.range();
        writeln!(out, "E {}..{} {error}", range.start, range.end)?;
    }
    Ok(())
}
