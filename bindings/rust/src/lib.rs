//! An input device and its reader, in memory: safe Rust over `libinputplay`.
//!
//! ```
//! use inputplay::codes::{EV_KEY, KEY_A};
//! use inputplay::{replies, Device, Event, Mode, Next, Step};
//!
//! let text = "inputrecord 1\ndevice pad\ncap EV_KEY KEY_A\nlog 1000\nsource s\n";
//! let mut pad = Device::new(text, 0).unwrap();
//! let program = pad.open().unwrap();
//! pad.start_reader().unwrap();
//! pad.inject(EV_KEY, KEY_A, 1, 0).unwrap();
//! pad.report(0).unwrap();
//! assert!(matches!(pad.next(Mode::Normal), Next::Event(event) if event.code == KEY_A));
//! assert_eq!(pad.value(EV_KEY, KEY_A), Some(1));
//!
//! let mut events = [Event::default(); 8];
//! let reply = pad.step(&Step::read(program, 8), &mut events, &mut []).unwrap();
//! assert_eq!((reply.reply, reply.count), (replies::TOOK, 2));
//! ```
//!
//! A [`Device`] answers as evdev does, and its reader as libevdev does. That the library keeps these rules is proved; this
//! crate is tested, and not proved.
//!
//! A [`Device`] and a [`Record`] may go to another thread, and are used by one call at a time:
//!
//! ```
//! fn goes_to_another_thread<T: Send>() {}
//! goes_to_another_thread::<inputplay::Device>();
//! goes_to_another_thread::<inputplay::Record>();
//! ```
//!
//! So threads that share one put it behind a lock:
//!
//! ```compile_fail,E0277
//! fn is_shared<T: Sync>() {}
//! is_shared::<inputplay::Device>();
//! ```
#![no_std]
#![warn(missing_docs)]

#[macro_use]
mod errors;
pub mod codes;
mod description;
mod device;
mod queries;
mod record;
mod step;
mod sys;

pub use codes::{EV_ABS, EV_KEY, EV_LED, EV_SW, EV_SYN};
pub use description::Description;
pub use device::{Client, Device, Events, JoyRead, Mode, Next, Phase, NO_CLIENT};
pub use errors::{Cause, Error, NotMade, Refusal};
pub use queries::{ClientState, Repeat, CLIENTS_MAX};
pub use record::{Actor, Command, Line, Record, Role};
pub use step::{replies, steps, Clock};
pub use sys::{Counts, Event, Info as Axis, Limits, Picture, Reply, Stamped, Step};

/// Whether the library that was linked has the interface that this crate is written for.
pub fn is_right_version() -> bool {
    // SAFETY: it takes nothing.
    unsafe { sys::inputplay_abi() == sys::ABI }
}
