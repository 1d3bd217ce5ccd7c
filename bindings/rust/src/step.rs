//! What the steps of a device and the replies to them are: their numbers, and how a step is made.

use crate::device::Client;
use crate::errors::Refusal;
use crate::sys::{Info, Reply, Step};

/// A clock by which a client's events have their times.
#[derive(Clone, Copy, Debug, PartialEq, Eq)]
pub enum Clock {
    /// `CLOCK_REALTIME`.
    Realtime = 0,
    /// `CLOCK_MONOTONIC`.
    Monotonic = 1,
    /// `CLOCK_BOOTTIME`.
    Boottime = 7,
}

impl Clock {
    /// The one of this number, as the header has it, if there is one.
    pub const fn of(number: u32) -> Option<Clock> {
        match number {
            0 => Some(Clock::Realtime),
            1 => Some(Clock::Monotonic),
            7 => Some(Clock::Boottime),
            _ => None,
        }
    }
}

impl From<Clock> for u32 {
    fn from(clock: Clock) -> u32 {
        clock as u32
    }
}

// Each step: what it is called, its number, and the fields that it reads.
macro_rules! steps {
    ($($(#[$what:meta])* $make:ident, $name:ident = $number:literal ($($field:ident: $type:ty),*);)*) => {
        /// The numbers of steps, as [`Step::step`](crate::Step::step) has them.
        pub mod steps {
            $($(#[$what])* pub const $name: u32 = $number;)*
        }

        #[allow(clippy::useless_conversion)]
        impl Step {
            $($(#[$what])*
            pub fn $make($($field: $type),*) -> Step {
                Step { step: $number, $($field: $field.into(),)* ..Step::default() }
            })*
        }
    };
}

steps! {
    /// The driver injects an event.
    inject, INJECT = 0 (kind: u16, code: u16, value: i32, now: u64);
    /// The timer of the autorepeat may fire.
    tick, TICK = 1 (now: u64);
    /// A client is opened (`open`).
    open, OPEN = 2 ();
    /// A client is closed (`close`).
    close, CLOSE = 3 (client: Client);
    /// At most so many events are read (`read`).
    read, READ = 4 (client: Client, count: u32);
    /// What is visible is removed, unread.
    discard, DISCARD = 5 (client: Client);
    /// Which keys are down (`EVIOCGKEY`).
    get_keys, GET_KEYS = 6 (client: Client);
    /// Which switches are on (`EVIOCGSW`).
    get_switches, GET_SWITCHES = 7 (client: Client);
    /// Which LEDs are on (`EVIOCGLED`).
    get_leds, GET_LEDS = 8 (client: Client);
    /// Which sounds are on (`EVIOCGSND`).
    get_sounds, GET_SOUNDS = 9 (client: Client);
    /// An axis (`EVIOCGABS`).
    get_axis, GET_AXIS = 10 (client: Client, code: u16);
    /// An axis is described anew (`EVIOCSABS`).
    set_axis, SET_AXIS = 11 (client: Client, code: u16, info: Info);
    /// One value of each slot (`EVIOCGMTSLOTS`).
    get_slots, GET_SLOTS = 12 (client: Client, code: u16);
    /// All values of all slots, 14 a slot.
    sync_slots, SYNC_SLOTS = 13 (client: Client);
    /// A client writes an event (`write`).
    write, WRITE = 14 (client: Client, kind: u16, code: u16, value: i32, now: u64);
    /// A client takes the grab (`EVIOCGRAB` 1).
    grab, GRAB = 15 (client: Client);
    /// A client gives up the grab (`EVIOCGRAB` 0).
    ungrab, UNGRAB = 16 (client: Client);
    /// A word of a client's mask of a type, whose number is `code` (`EVIOCSMASK`).
    mask, MASK = 17 (client: Client, kind: u16, code: u16, bits: u64);
    /// A client's times are of another clock (`EVIOCSCLOCKID`).
    clock, CLOCK = 18 (client: Client, clock: Clock, now: u64);
    /// A client loses the device for good, but for closing it (`EVIOCREVOKE`).
    revoke, REVOKE = 19 (client: Client);
    /// The device is inhibited.
    inhibit, INHIBIT = 20 (now: u64);
    /// The device is no longer inhibited.
    uninhibit, UNINHIBIT = 21 ();
    /// A source is done.
    end, END = 22 ();
}

/// The numbers of replies, as [`Reply::reply`] has them.
pub mod replies {
    /// It was done.
    pub const DONE: u32 = 0;
    /// The client's number, and the count of its ring's places.
    pub const OPENED: u32 = 1;
    /// So many events stand at the front of the array.
    pub const TOOK: u32 = 2;
    /// So many events were removed.
    pub const DISCARDED: u32 = 3;
    /// The words: bit i of the 768 for code i.
    pub const BITS: u32 = 4;
    /// The axis.
    pub const AXIS: u32 = 5;
    /// So many values stand at the front of the array.
    pub const CELLS: u32 = 6;
    /// Nothing is there (`-EAGAIN`); the count of the sources that are done.
    pub const AGAIN: u32 = 7;
    /// The step was refused.
    pub const REFUSED: u32 = 8;
}

impl Reply {
    /// Why the step was refused, if it was.
    pub fn refusal(&self) -> Option<Refusal> {
        Refusal::of(self.why)
    }

    /// The client that was opened, if one was.
    pub fn opened(&self) -> Option<Client> {
        (self.reply == replies::OPENED).then_some(Client::from(self.client))
    }
}
