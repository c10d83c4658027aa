//! Worked examples of each call, and the declarations against the header.
use squawk::{
    Action, Base, Division, Error, Kind, Options, Strings, TokenKind, kinds, parse, tokenize,
};
use std::time::{Duration, Instant};

const HEADER: &str = include_str!("../../c/include/squawk.h");

/// The names of the enumerators of the header with this prefix, each with its number.
fn enumerators(prefix: &str) -> Vec<(String, u32)> {
    let rows = HEADER
        .lines()
        .filter_map(|line| line.trim().strip_prefix(prefix));
    let rows = rows.filter_map(|row| row.split_once(" = "));
    rows.map(|(name, rest)| {
        let digits = rest.chars().take_while(char::is_ascii_digit);
        let number: String = digits.collect();
        (name.to_string(), number.parse().expect("a number"))
    })
    .collect()
}

/// `QuotedIdent` as `QUOTED_IDENT`.
fn screaming(name: &str) -> String {
    let mut out = String::new();
    for (i, c) in name.chars().enumerate() {
        if i > 0 && c.is_ascii_uppercase() {
            out.push('_');
        }
        out.push(c.to_ascii_uppercase());
    }
    out
}

#[test]
fn token_kinds_are_those_of_the_header() {
    let expected = enumerators("SQUAWK_TOKEN_");
    let kinds: Vec<_> = TokenKind::ALL
        .iter()
        .map(|kind| (screaming(&format!("{kind:?}")), *kind as u32))
        .collect();
    assert_eq!(kinds, expected);
}

#[test]
fn version_is_that_of_the_header() {
    let line = HEADER
        .lines()
        .find(|line| line.contains("define SQUAWK_VERSION"));
    let number = line
        .and_then(|line| line.rsplit(' ').next())
        .unwrap_or_default();
    let (major, minor) = squawk::version();
    assert_eq!(format!("{}u", major * 65536 + minor), number);
}

/// The kind and the text of each token.
fn tokens_of(text: &str, options: Options) -> Vec<(TokenKind, &str)> {
    let tokens = tokenize(text, options).expect("a short text");
    tokens
        .map(|token| (token.kind(), &text[token.range()]))
        .collect()
}

#[test]
fn tokens_have_kinds_and_texts() {
    use TokenKind::*;
    let text = "select é, 'a' -- x\n;";
    let expected = [
        (Ident, "select"),
        (Whitespace, " "),
        (Ident, "é"),
        (Comma, ","),
        (Whitespace, " "),
        (Str, "'a'"),
        (Whitespace, " "),
        (LineComment, "-- x"),
        (Whitespace, "\n"),
        (Semi, ";"),
    ];
    assert_eq!(tokens_of(text, Options::default()), expected);
    assert_eq!(tokens_of("", Options::default()), []);
}

#[test]
fn many_tokens_are_cut_in_portions() {
    let text = "x ".repeat(1000);
    let mut end = 0;
    for token in tokenize(&text, Options::default()).expect("a short text") {
        assert_eq!(token.range(), end..end + 1);
        end += 1;
    }
    assert_eq!(end, 2000);
}

#[test]
fn tokens_have_flags() {
    let text = "0x 1e 12ab $1 'open";
    let mut tokens = tokenize(text, Options::default()).expect("a short text");
    let mut next = || {
        tokens
            .find(|token| token.kind() != TokenKind::Whitespace)
            .expect("a token")
    };
    let prefix = next();
    assert_eq!(
        (prefix.base(), prefix.is_empty_int()),
        (Some(Base::Hexadecimal), true)
    );
    let exponent = next();
    assert_eq!(
        (exponent.kind(), exponent.has_empty_exponent()),
        (TokenKind::Numeric, true)
    );
    let junk = next();
    assert_eq!(
        (junk.base(), junk.trailing_junk_start()),
        (Some(Base::Decimal), Some(2))
    );
    assert_eq!(next().trailing_junk_start(), Some(2));
    let open = next();
    assert_eq!(
        (open.is_terminated(), open.trailing_junk_start()),
        (Some(false), None)
    );
}

#[test]
fn tokens_with_an_end_say_whether_it_was_found() {
    let rows = [
        ("'a'", Some(true)),
        ("'a", Some(false)),
        ("\"a\"", Some(true)),
        ("/* a", Some(false)),
        ("$$a$$", Some(true)),
        ("a", None),
        ("-- a", None),
    ];
    for (text, expected) in rows {
        let mut tokens = tokenize(text, Options::default()).expect("a short text");
        let token = tokens.next().expect("a token");
        assert_eq!(token.is_terminated(), expected, "{text}");
    }
}

#[test]
fn options_choose_the_reading() {
    let backslash = Options {
        strings: Strings::Backslash,
        ..Options::default()
    };
    assert_eq!(tokens_of(r"'a\' y'", backslash).len(), 1);
    assert_eq!(tokens_of(r"'a\' y'", Options::default()).len(), 4);
    let text = "create rule r as on insert to t do (notify a; notify b);";
    let grouped = Options {
        division: Division::Grouped,
        ..Options::default()
    };
    let count = |options| {
        let tree = parse(text, options).expect("memory");
        tree.children()
            .filter(|child| child.node().is_some())
            .count()
    };
    assert_eq!((count(Options::default()), count(grouped)), (2, 1));
}

#[test]
fn trees_are_slices_of_steps() {
    let text = "select 1;";
    let tree = parse(text, Options::default()).expect("memory");
    let actions: Vec<_> = tree.steps().iter().map(|step| step.action()).collect();
    use Action::{Enter, Exit, Leaf};
    assert_eq!(actions, [Enter, Enter, Leaf, Leaf, Leaf, Leaf, Exit, Exit]);
    let child = tree.children().next().expect("a statement");
    assert_eq!(
        (child.node(), child.range(), child.steps().len()),
        (Some(kinds::SELECT), 0..9, 6)
    );
    let leaves: Vec<_> = child
        .children()
        .map(|leaf| (leaf.kind(), &text[leaf.range()]))
        .collect();
    let expected = [
        (kinds::SELECT_KW, "select"),
        (kinds::WHITESPACE, " "),
        (kinds::INT_NUMBER, "1"),
        (kinds::SEMICOLON, ";"),
    ];
    assert_eq!(leaves, expected);
    assert!(
        child
            .children()
            .all(|leaf| leaf.children().next().is_none())
    );
}

#[test]
fn arrays_grow_where_the_first_ones_are_too_small() {
    let text = ";".repeat(100);
    let tree = parse(&text, Options::default()).expect("memory");
    assert_eq!((tree.steps().len(), tree.children().count()), (302, 100));
    let text = "comit;".repeat(100);
    let tree = parse(&text, Options::default()).expect("memory");
    assert_eq!((tree.children().count(), tree.errors().len()), (100, 100));
    assert_eq!(tree.errors()[99].range(), 594..599);
    assert_eq!(tree.errors()[99].message(), "unknown statement");
}

#[test]
fn deep_trees_are_walked_in_linear_time() {
    const DEPTH: usize = 8000;
    let text = "(".repeat(DEPTH);
    let tree = parse(&text, Options::default()).expect("memory");
    let begin = Instant::now();
    let (mut leaf_count, mut depth) = (0, 0);
    let mut open = vec![tree.children()];
    while let Some(children) = open.last_mut() {
        match children.next() {
            Some(child) if child.node().is_some() => open.push(child.children()),
            Some(leaf) => {
                assert_eq!((leaf.kind(), leaf.steps().len()), (kinds::L_PAREN, 1));
                leaf_count += 1;
            }
            None => {
                depth = depth.max(open.len());
                open.pop();
            }
        }
    }
    assert_eq!(leaf_count, DEPTH);
    assert!(depth >= DEPTH, "{depth}");
    assert!(begin.elapsed() < Duration::from_secs(1));
}

#[test]
#[cfg(target_pointer_width = "64")]
fn long_texts_are_refused_before_anything_is_allocated() {
    use std::alloc::{Layout, alloc_zeroed, dealloc};

    let layout = Layout::array::<u8>(1 << 32).expect("a size");
    // SAFETY: the size is not 0.
    let zeros = unsafe { alloc_zeroed(layout) };
    if zeros.is_null() {
        eprintln!("the system reserves no 4 GiB, so long texts are left out");
        return;
    }
    // No byte is read, so the system does not have to find the memory.
    // SAFETY: zeros are UTF-8, and nothing else uses them.
    let text = unsafe { str::from_utf8_unchecked(std::slice::from_raw_parts(zeros, 1 << 32)) };
    assert_eq!(parse(text, Options::default()), Err(Error::TooLong));
    let tokens = tokenize(text, Options::default());
    assert_eq!(tokens.err(), Some(Error::TooLong));
    // SAFETY: the same layout, and `text` is used no longer.
    unsafe { dealloc(zeros, layout) };
}

#[test]
fn errors_come_in_the_order_of_the_tokens() {
    let text = "select 0x; 1e_ 'a";
    let tree = parse(text, Options::default()).expect("memory");
    let expected = [
        ("0x", "missing digits after base prefix"),
        ("1e_", "unknown statement"),
        ("e", "missing digits in exponent"),
        ("_", "trailing junk after number"),
        ("'a", "unterminated string"),
    ];
    assert_eq!(tree.errors().len(), expected.len());
    for (error, (part, message)) in tree.errors().iter().zip(expected) {
        assert_eq!((&text[error.range()], &*error.message()), (part, message));
    }
}

#[test]
fn an_empty_text_has_an_empty_tree() {
    let tree = parse("", Options::default()).expect("memory");
    assert_eq!(
        (
            tree.steps().len(),
            tree.children().count(),
            tree.errors().len()
        ),
        (2, 0, 0)
    );
}

#[test]
fn kinds_have_names() {
    assert_eq!(kinds::SELECT.name(), "select");
    assert_eq!(format!("{:>8}", kinds::SEMICOLON), "     `;`");
    assert_eq!(
        Kind::from_number(kinds::SELECT.number()),
        Some(kinds::SELECT)
    );
    assert_eq!(Kind::from_number(2068), None);
}

#[test]
fn errors_are_errors() {
    let error: Box<dyn std::error::Error> = Error::TooLong.into();
    assert_eq!(error.to_string(), "too long");
    let tree = parse("comit", Options::default()).expect("memory");
    let error: Box<dyn std::error::Error> = tree.errors()[0].into();
    assert_eq!(error.to_string(), "unknown statement");
}
