//! The tree of a text, and its errors.
use crate::error::check_call;
use crate::{Error, Kind, Options, ffi};
use std::error;
use std::fmt;
use std::iter::FusedIterator;
use std::ops::Range;

/// What a step of a tree does.
#[derive(Clone, Copy, Debug, PartialEq, Eq, Hash)]
pub enum Action {
    /// It enters a node.
    Enter,
    /// It is a leaf.
    Leaf,
    /// It leaves the innermost open node.
    Exit,
}

/// A step of a tree, with its range in the text.
#[repr(C)]
#[derive(Clone, Copy, Debug, PartialEq, Eq, Hash)]
pub struct Step {
    step: u16,
    kind: u16,
    start: u32,
    end: u32,
}

impl Step {
    /// What an array holds before the library writes to it.
    pub(crate) const EMPTY: Self = Step {
        step: 0,
        kind: 0,
        start: 0,
        end: 0,
    };

    /// Returns what the step does.
    pub fn action(&self) -> Action {
        match self.step {
            0 => Action::Enter,
            1 => Action::Leaf,
            _ => Action::Exit,
        }
    }

    /// Returns the kind of the node that is entered, or of the leaf.
    pub fn kind(&self) -> Option<Kind> {
        (self.action() != Action::Exit).then_some(Kind(self.kind))
    }

    /// Returns the range of the leaf, or of the whole node both where it is entered and left.
    pub fn range(&self) -> Range<usize> {
        self.start as usize..self.end as usize
    }
}

/// An error in a text. Every text has a tree, so no call fails with it.
#[repr(C)]
#[derive(Clone, Copy, Debug, PartialEq, Eq, Hash)]
pub struct ParseError {
    start: u32,
    end: u32,
    number: u32,
}

impl ParseError {
    /// What an array holds before the library writes to it. No error of a text has the number 0.
    pub(crate) const EMPTY: Self = ParseError {
        start: 0,
        end: 0,
        number: 0,
    };

    /// Returns the range in the text.
    pub fn range(&self) -> Range<usize> {
        self.start as usize..self.end as usize
    }

    /// Returns the number of the message, from 1 to 10.
    pub fn number(&self) -> u32 {
        self.number
    }

    /// Returns the message.
    pub fn message(&self) -> String {
        self.to_string()
    }
}

/// Writes the message.
impl fmt::Display for ParseError {
    fn fmt(&self, f: &mut fmt::Formatter<'_>) -> fmt::Result {
        let mut room = [0; ffi::MESSAGE_ROOM];
        let mut count = 0;
        // SAFETY: the pointers are those of references, and the capacity is that of the array.
        let status =
            unsafe { ffi::squawk_message(self.number, room.as_mut_ptr(), room.len(), &mut count) };
        let text = if status == ffi::OK {
            &room[..count]
        } else {
            &[]
        };
        f.pad(str::from_utf8(text).unwrap_or_default())
    }
}

impl error::Error for ParseError {}

/// The tree of a text, and its errors.
#[derive(Clone, Debug, PartialEq, Eq)]
pub struct Parse {
    steps: Vec<Step>,
    /// For each step but an exit the number of steps of the leaf or the node that begins there. A
    /// text can have more steps than a `u32` counts.
    lengths: Vec<usize>,
    errors: Vec<ParseError>,
}

/// Parses a text into statements. Every text of at most 4294967295 bytes parses, unless memory runs
/// out.
pub fn parse(text: &str, options: Options) -> Result<Parse, Error> {
    check_call(text.len())?;
    let mut step_count = text.len() / 2 + 16;
    let mut error_count = 16;
    loop {
        let mut steps = filled(Step::EMPTY, step_count)?;
        let mut errors = filled(ParseError::EMPTY, error_count)?;
        // SAFETY: the pointers are those of references that do not overlap, and the lengths are
        // theirs.
        let status = unsafe {
            ffi::squawk_parse(
                text.as_ptr(),
                text.len(),
                options.bits(),
                steps.as_mut_ptr(),
                steps.len(),
                &mut step_count,
                errors.as_mut_ptr(),
                errors.len(),
                &mut error_count,
            )
        };
        match status {
            ffi::OK => {
                steps.truncate(step_count);
                steps.shrink_to_fit();
                errors.truncate(error_count);
                errors.shrink_to_fit();
                let lengths = lengths_of(&steps)?;
                return Ok(Parse {
                    steps,
                    lengths,
                    errors,
                });
            }
            ffi::ARRAY_TOO_SMALL => {}
            status => return Err(Error::of_status(status)),
        }
    }
}

/// Returns this many copies of a value.
fn filled<T: Clone>(value: T, count: usize) -> Result<Vec<T>, Error> {
    let mut values = Vec::new();
    values
        .try_reserve_exact(count)
        .map_err(|_| Error::OutOfMemory)?;
    values.resize(count, value);
    Ok(values)
}

/// Returns for each step but an exit the number of steps of the leaf or the node that begins there.
/// Until a node is left, its entry holds the index of the node around it.
fn lengths_of(steps: &[Step]) -> Result<Vec<usize>, Error> {
    let mut lengths = filled(1, steps.len())?;
    let mut open_node = 0;
    for (i, step) in steps.iter().enumerate() {
        match step.action() {
            Action::Enter => {
                lengths[i] = open_node;
                open_node = i;
            }
            Action::Leaf => {}
            Action::Exit => {
                let outer_node = lengths[open_node];
                lengths[open_node] = i + 1 - open_node;
                open_node = outer_node;
            }
        }
    }
    Ok(lengths)
}

impl Parse {
    /// Returns the steps of the tree, in the order of the text. The first one enters the root, and
    /// the last one leaves it.
    pub fn steps(&self) -> &[Step] {
        &self.steps
    }

    /// Returns the errors, in the order of the tokens; at each token first those of the grammar,
    /// then its faults by number.
    pub fn errors(&self) -> &[ParseError] {
        &self.errors
    }

    /// Returns the children of the root.
    pub fn children(&self) -> Children<'_> {
        let root = Child {
            steps: &self.steps,
            lengths: &self.lengths,
        };
        root.children()
    }
}

/// A child of a node: a leaf, which is one step, or a node, from its `Enter` to its `Exit`.
#[derive(Clone, Copy, Debug, PartialEq, Eq)]
pub struct Child<'t> {
    steps: &'t [Step],
    lengths: &'t [usize],
}

impl<'t> Child<'t> {
    /// Returns its steps.
    pub fn steps(&self) -> &'t [Step] {
        self.steps
    }

    /// Returns its range in the text.
    pub fn range(&self) -> Range<usize> {
        self.steps[0].range()
    }

    /// Returns the kind of the leaf or the node.
    pub fn kind(&self) -> Kind {
        Kind(self.steps[0].kind)
    }

    /// Returns the kind of the node, if it is one.
    pub fn node(&self) -> Option<Kind> {
        (self.steps[0].action() == Action::Enter).then_some(self.kind())
    }

    /// Returns its children. A leaf has none.
    pub fn children(&self) -> Children<'t> {
        let inside = 1..self.steps.len() - 1;
        Children {
            steps: self.steps.get(inside.clone()).unwrap_or_default(),
            lengths: self.lengths.get(inside).unwrap_or_default(),
        }
    }
}

/// An iterator over the children of a node. Each call of `next` takes the same time, however large
/// the child is.
#[derive(Clone, Debug)]
pub struct Children<'t> {
    steps: &'t [Step],
    lengths: &'t [usize],
}

impl<'t> Iterator for Children<'t> {
    type Item = Child<'t>;

    fn next(&mut self) -> Option<Child<'t>> {
        let length = *self.lengths.first()?;
        let (steps, later_steps) = self.steps.split_at(length);
        let (lengths, later_lengths) = self.lengths.split_at(length);
        self.steps = later_steps;
        self.lengths = later_lengths;
        Some(Child { steps, lengths })
    }
}

impl FusedIterator for Children<'_> {}

#[cfg(test)]
mod tests {
    use super::parse;
    use crate::Options;

    #[test]
    fn a_tree_keeps_no_room_that_it_does_not_need() {
        let tree = parse(&"a".repeat(10000), Options::default()).expect("memory");
        assert!(tree.steps.len() < 10);
        assert!(tree.steps.capacity() < 100);
        assert!(tree.errors.capacity() < 16);
    }
}
