//! The numbers of `<linux/input-event-codes.h>`, by its names, and their names.
//!
//! ```
//! use inputplay::codes;
//!
//! assert_eq!(codes::BTN_A, 0x130);
//! assert_eq!(codes::code_of("BTN_A"), Some((codes::EV_KEY, codes::BTN_SOUTH)));
//! assert_eq!(codes::name_of(codes::EV_KEY, 0x130), Some("BTN_SOUTH"));
//! assert_eq!(codes::KEY_CNT, 768);
//! ```
#![allow(missing_docs)]

include!(concat!(env!("OUT_DIR"), "/codes.rs"));

/// The type and the code of a name, as `(EV_KEY, 30)` for `KEY_A`. A code may have several names.
pub fn code_of(name: &str) -> Option<(u16, u16)> {
    NAMES.iter().find(|row| row.0 == name).map(|&(_, kind, code)| (kind, code))
}

/// The first name of a code, as `KEY_A` for `EV_KEY` and 30, if it has one.
pub fn name_of(kind: u16, code: u16) -> Option<&'static str> {
    NAMES.iter().find(|row| (row.1, row.2) == (kind, code)).map(|row| row.0)
}
