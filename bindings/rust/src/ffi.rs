//! The calls of the library, as `bindings/c/include/squawk.h` declares them.
//!
//! Nothing compares these declarations with the library but the tests: a slice is passed as a
//! pointer and a length.
use crate::{ParseError, Step, Token};

pub const OK: u32 = 0;
pub const TOO_LONG: u32 = 5;
pub const OUT_OF_MEMORY: u32 = 6;
pub const ARRAY_TOO_SMALL: u32 = 12;

/// The version of the interface that is declared here.
pub const VERSION: u32 = 65536;

/// Room for the name of every kind.
pub const NAME_ROOM: usize = 39;

/// Room for every message.
pub const MESSAGE_ROOM: usize = 40;

unsafe extern "C" {
    pub safe fn squawk_version() -> u32;

    pub fn squawk_tokens_unchecked(
        text: *const u8,
        length: usize,
        options: u32,
        at: *mut usize,
        tokens: *mut Token,
        capacity: usize,
        count: *mut usize,
    ) -> u32;

    pub fn squawk_parse(
        text: *const u8,
        length: usize,
        options: u32,
        steps: *mut Step,
        step_capacity: usize,
        step_count: *mut usize,
        errors: *mut ParseError,
        error_capacity: usize,
        error_count: *mut usize,
    ) -> u32;

    pub fn squawk_kind_name(kind: u32, name: *mut u8, capacity: usize, count: *mut usize) -> u32;

    pub fn squawk_message(number: u32, text: *mut u8, capacity: usize, count: *mut usize) -> u32;
}

// The library writes these: their layout is that of the header.
const _: () = assert!(size_of::<Token>() == 16 && align_of::<Token>() == 4);
const _: () = assert!(size_of::<Step>() == 12 && align_of::<Step>() == 4);
const _: () = assert!(size_of::<ParseError>() == 12 && align_of::<ParseError>() == 4);
