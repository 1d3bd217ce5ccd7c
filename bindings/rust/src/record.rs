//! Whole records.

use crate::errors::{check, check_made, Error, NotMade};
use crate::sys::{self, Counts, Handle, RawLine, Stamped, Step};
use core::fmt;

// In place of a step's number, where a line makes none.
const NO_STEP: u32 = u32::MAX;

numbered! {
    /// The roles of actors, with the words of a record.
    Role {
        /// It injects events, as a driver does.
        Source = 0 "source",
        /// It reads by a reader.
        Client = 1 "client",
        /// It makes a client's calls one by one.
        Tap = 2 "tap",
        /// It reads by a joystick client.
        Joystick = 3 "joy",
        /// It takes what is sent to a device that was made by requests.
        Owner = 4 "owner",
    }
}

numbered! {
    /// The commands of action lines, with the words of a record.
    Command {
        /// A source injects an event.
        Event = 0 "event",
        /// A source lets the timer of the autorepeat fire, where it is due.
        Tick = 1 "tick",
        /// A source inhibits the device.
        Inhibit = 2 "inhibit",
        /// A source ends the inhibition.
        Uninhibit = 3 "uninhibit",
        /// A source injects the events of a file.
        Stream = 4 "stream",
        /// The same with records of 16 bytes.
        Stream16 = 5 "stream16",
        /// A client is opened.
        Open = 6 "open",
        /// It is closed.
        Close = 7 "close",
        /// It takes the grab.
        Grab = 8 "grab",
        /// It gives up the grab.
        Ungrab = 9 "ungrab",
        /// It is revoked.
        Revoke = 10 "revoke",
        /// A word of one of its masks is set.
        Mask = 11 "mask",
        /// It chooses a clock.
        Clock = 12 "clock",
        /// It writes an event.
        Write = 13 "write",
        /// It describes an axis anew.
        SetAxis = 14 "setaxis",
        /// A tap reads events, or a joystick records.
        Read = 15 "read",
        /// A tap removes what it could read.
        Discard = 16 "discard",
        /// A tap asks for keys.
        Keys = 17 "keys",
        /// A tap asks for switches.
        Switches = 18 "switches",
        /// A tap asks for LEDs.
        Leds = 19 "leds",
        /// A tap asks for sounds.
        Sounds = 20 "sounds",
        /// A tap asks for all values of all slots.
        SyncSlots = 21 "syncslots",
        /// A tap asks for an axis.
        Axis = 22 "axis",
        /// A tap asks for one value of each slot.
        Slots = 23 "slots",
        /// A client is handed the next events.
        Next = 24 "next",
        /// The same, without those that its reader makes when it synchronises.
        Skip = 25 "skip",
        /// A client is handed events until none is there.
        Follow = 26 "follow",
        /// A client's reader is to synchronise.
        Force = 27 "force",
        /// An owner takes what was sent to its device.
        Feedback = 28 "feedback",
    }
}

/// An actor: its role, the number of its device, and how many bytes its name has.
#[derive(Clone, Copy, Debug, PartialEq, Eq)]
pub struct Actor {
    /// Its role.
    pub role: Role,
    /// The number of its device.
    pub device: u32,
    /// How many bytes its name has.
    pub len: usize,
}

/// An action line.
#[derive(Clone, Copy, Debug, PartialEq, Eq)]
pub struct Line {
    /// The number of its actor.
    pub actor: u32,
    /// What it has the actor do.
    pub command: Command,
    /// The number behind the command, 0 for those that have none.
    pub count: u32,
    /// The step that it makes, where it makes one, with client 0: a record knows of no clients' numbers.
    pub step: Option<Step>,
}

/// A record, of its text. It may go to another thread; threads that share one put it behind a lock.
pub struct Record {
    handle: Handle,
}

impl Record {
    /// The record that a text is.
    pub fn new(text: &str) -> Result<Record, NotMade> {
        let mut record = Record { handle: Handle::NOTHING };
        let (mut line, mut cause) = (0, 0);
        // SAFETY: the text is as long as it says, and the others are places of their own.
        let status = unsafe {
            sys::inputplay_record_new(text.as_ptr(), text.len(), &mut record.handle, &mut line, &mut cause)
        };
        check_made(status, line, cause)?;
        Ok(record)
    }

    /// Gives an action line, from 0, the bytes of its stream.
    pub fn load(&mut self, line: u32, bytes: &[u8]) -> Result<(), Error> {
        // SAFETY: the bytes are as many as it says, and the handle is a place of its own.
        check(unsafe { sys::inputplay_record_load(&mut self.handle, line, bytes.as_ptr(), bytes.len()) })
    }

    /// Copies the name of the file that a stream line names, as much as fits, and gives how many bytes it has; `None` where
    /// the line takes no stream.
    pub fn file(&mut self, line: u32, out: &mut [u8]) -> Option<usize> {
        let mut len = 0;
        // SAFETY: the array is as long as it says, and the others are places of their own.
        let status = unsafe {
            sys::inputplay_record_file(&mut self.handle, line, out.as_mut_ptr(), out.len(), &mut len)
        };
        (status == 0).then_some(len)
    }

    /// How much it has.
    pub fn counts(&mut self) -> Counts {
        let mut counts = Counts::default();
        // SAFETY: both are places of their own. A record is kept, so no other status comes than 0.
        let _ = unsafe { sys::inputplay_record_counts(&mut self.handle, &mut counts) };
        counts
    }

    /// Copies the name of the device of this number, as much as fits, and gives how many bytes it has, at most 32; `None`
    /// where there is no such device.
    pub fn device(&mut self, device: u32, out: &mut [u8]) -> Option<usize> {
        let mut len = 0;
        // SAFETY: the array is as long as it says, and the others are places of their own.
        let status = unsafe {
            sys::inputplay_record_device(&mut self.handle, device, out.as_mut_ptr(), out.len(), &mut len)
        };
        check(status).ok().map(|()| len)
    }

    /// The actor of this number, over all devices; its name is copied as that of a device. `None` where there is no such actor.
    pub fn actor(&mut self, actor: u32, out: &mut [u8]) -> Option<Actor> {
        let (mut role, mut device, mut len) = (0, 0, 0);
        // SAFETY: the array is as long as it says, and the others are places of their own.
        let status = unsafe {
            sys::inputplay_record_actor(
                &mut self.handle,
                actor,
                &mut role,
                &mut device,
                out.as_mut_ptr(),
                out.len(),
                &mut len,
            )
        };
        check(status).ok()?;
        Some(Actor { role: Role::of(role)?, device, len })
    }

    /// The action line of this number, from 0; `None` where there is no such line.
    pub fn line(&mut self, line: u32) -> Option<Line> {
        let mut raw = RawLine::default();
        // SAFETY: both are places of their own.
        check(unsafe { sys::inputplay_record_line(&mut self.handle, line, &mut raw) }).ok()?;
        let step = (raw.step.step != NO_STEP).then_some(raw.step);
        Some(Line { actor: raw.actor, command: Command::of(raw.command)?, count: raw.count, step })
    }

    /// Copies the events of a stream line that was given its bytes, from a place on, as many as fit, and gives how many there
    /// are from there on; `None` where the line takes no stream or has fewer.
    pub fn events(&mut self, line: u32, from: usize, events: &mut [Stamped]) -> Option<usize> {
        let mut left = 0;
        // SAFETY: the array is as long as it says, and the others are places of their own.
        let status = unsafe {
            sys::inputplay_record_events(
                &mut self.handle,
                line,
                from,
                events.as_mut_ptr(),
                events.len(),
                &mut left,
            )
        };
        check(status).ok().map(|()| left)
    }

    /// Plays the record on this thread, makes its report its text, with the steps of each device where `history` is wanted,
    /// and gives how many bytes it has. The record stays, and may be played again. A stream line that was given no bytes has
    /// no events.
    pub fn play(&mut self, history: bool) -> Result<usize, Error> {
        let mut len = 0;
        // SAFETY: both are places of their own.
        check(unsafe { sys::inputplay_record_play(&mut self.handle, history.into(), &mut len) })?;
        Ok(len)
    }

    /// Makes the record's text in the newest version its text, and gives how many bytes it has.
    pub fn migrate(&mut self) -> Result<usize, Error> {
        let mut len = 0;
        // SAFETY: both are places of their own.
        check(unsafe { sys::inputplay_record_migrate(&mut self.handle, &mut len) })?;
        Ok(len)
    }

    /// Copies the text that was made last, from a byte on, as much as fits, and gives how many bytes there are from there on;
    /// `None` where it has fewer.
    pub fn text(&mut self, from: usize, out: &mut [u8]) -> Option<usize> {
        let mut left = 0;
        // SAFETY: the array is as long as it says, and the others are places of their own.
        let status = unsafe {
            sys::inputplay_record_text(&mut self.handle, from, out.as_mut_ptr(), out.len(), &mut left)
        };
        (status == 0).then_some(left)
    }
}

impl Drop for Record {
    fn drop(&mut self) {
        // SAFETY: the handle was made by `Record::new`, and is used no more.
        unsafe { sys::inputplay_free(&mut self.handle) }
    }
}
