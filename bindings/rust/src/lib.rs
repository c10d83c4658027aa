//! A PostgreSQL lexer and lossless syntax trees: safe calls of the proved library.
//!
//! ```
//! use squawk::{Options, kinds, parse};
//!
//! let text = "select 1; comit;";
//! let tree = parse(text, Options::default())?;
//! let nodes: Vec<_> = tree.children().filter_map(|child| child.node()).collect();
//! assert_eq!(nodes, [kinds::SELECT, kinds::ERROR]);
//! let error = tree.errors()[0];
//! assert_eq!((&text[error.range()], error.message()), ("comit", "unknown statement".into()));
//! # Ok::<(), squawk::Error>(())
//! ```
//!
//! What the library is proved to do is said in `bindings/c/include/squawk.h`. A `&str` and Rust's
//! borrows give all that it asks of its callers, so no call here is unsafe. Texts of more than
//! 4294967295 bytes are refused. All offsets count bytes.
#![warn(missing_docs)]

mod error;
mod ffi;
mod kind;
mod options;
mod token;
mod tree;

pub use error::Error;
pub use kind::{Kind, kinds};
pub use options::{Division, Options, Strings};
pub use token::{Base, Token, TokenKind, Tokens, tokenize};
pub use tree::{Action, Child, Children, Parse, ParseError, Step, parse};

/// Returns the version of the library's interface: the major and the minor number.
pub fn version() -> (u32, u32) {
    let version = ffi::squawk_version();
    (version >> 16, version & 0xffff)
}
