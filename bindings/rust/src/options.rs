//! How a text is read.

/// How strings without a prefix are read: PostgreSQL's setting `standard_conforming_strings`.
#[derive(Clone, Copy, Debug, Default, PartialEq, Eq, Hash)]
pub enum Strings {
    /// `on`, PostgreSQL's default: a backslash is an ordinary character.
    #[default]
    Standard,
    /// `off`: a backslash escapes the next character, as in `E'..'`.
    Backslash,
}

/// The rule by which a semicolon ends a statement.
#[derive(Clone, Copy, Debug, Default, PartialEq, Eq, Hash)]
pub enum Division {
    /// Every semicolon ends the statement that it stands in.
    #[default]
    Flat,
    /// A semicolon in parentheses ends no statement.
    Grouped,
}

/// How a text is read. `docs/READINGS.md` compares the four readings.
#[derive(Clone, Copy, Debug, Default, PartialEq, Eq, Hash)]
pub struct Options {
    /// How strings without a prefix are read.
    pub strings: Strings,
    /// Where a statement ends. No token depends on it.
    pub division: Division,
}

impl Options {
    /// The options as the library takes them.
    pub(crate) fn bits(self) -> u32 {
        u32::from(self.strings == Strings::Backslash)
            + 2 * u32::from(self.division == Division::Grouped)
    }
}
