//! The kinds of leaves and nodes.
use crate::ffi;
use std::fmt;

/// The kind of a leaf or a node. [`kinds`] has a constant for each.
#[derive(Clone, Copy, Debug, PartialEq, Eq, PartialOrd, Ord, Hash)]
pub struct Kind(pub(crate) u16);

impl Kind {
    /// Returns the number of the kind.
    pub fn number(self) -> u16 {
        self.0
    }

    /// Returns the kind with this number, if there is one.
    pub fn from_number(number: u16) -> Option<Kind> {
        let mut room = [0; ffi::NAME_ROOM];
        Kind(number).write_name(&mut room).map(|_| Kind(number))
    }

    /// Returns the printed text of the kind, as the report has it. It is ASCII.
    pub fn name(self) -> String {
        self.to_string()
    }

    /// Writes the name to `room`, and returns it.
    fn write_name(self, room: &mut [u8; ffi::NAME_ROOM]) -> Option<&str> {
        let mut count = 0;
        // SAFETY: the pointers are those of references, and the capacity is that of the array.
        let status = unsafe {
            ffi::squawk_kind_name(self.0.into(), room.as_mut_ptr(), room.len(), &mut count)
        };
        (status == ffi::OK).then_some(())?;
        str::from_utf8(room.get(..count)?).ok()
    }
}

impl fmt::Display for Kind {
    fn fmt(&self, f: &mut fmt::Formatter<'_>) -> fmt::Result {
        f.pad(
            self.write_name(&mut [0; ffi::NAME_ROOM])
                .unwrap_or_default(),
        )
    }
}

/// A constant for each kind, such as `kinds::SELECT`.
pub mod kinds {
    use super::Kind;

    include!(concat!(env!("OUT_DIR"), "/kinds.rs"));
}
