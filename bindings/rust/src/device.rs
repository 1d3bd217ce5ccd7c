//! Devices, their clients and their readers.

use crate::codes::EV_SYN;
use crate::description::Description;
use crate::errors::{check, check_made, check_step, Cause, Error, NotMade};
use crate::step::replies;
use crate::sys::{self, Event, Handle, Picture, Reply, Stamped, Step};

/// The client of a reader that has opened none.
pub const NO_CLIENT: u32 = u32::MAX;

/// How a reader is asked for its next event.
#[derive(Clone, Copy, Debug, PartialEq, Eq)]
pub enum Mode {
    /// The next event.
    Normal = 0,
    /// The next synthesised event.
    Sync = 1,
}

/// What a reader answers.
#[derive(Clone, Copy, Debug, PartialEq, Eq)]
#[non_exhaustive]
pub enum Next {
    /// An event of the device.
    Event(Event),
    /// SYN_DROPPED: events were lost, and the reader is to synchronise.
    Dropped(Event),
    /// A synthesised event.
    Sync(Event),
    /// Nothing is there.
    Again,
    /// Nothing is left to synchronise.
    Synced,
    /// The client was revoked.
    NoDevice,
    /// The client is not open.
    Closed,
    /// The history is full.
    Full,
}

/// What a joystick client answers.
#[derive(Clone, Copy, Debug, PartialEq, Eq)]
#[non_exhaustive]
pub enum JoyRead {
    /// A record was handed out: the bytes of a `struct js_event`.
    Record([u8; 8]),
    /// A frame ended: the place of the step that ended it.
    Frame(u32),
    /// Nothing is there.
    Again,
    /// The client was revoked.
    NoDevice,
    /// The client is not open.
    Closed,
    /// The history is full.
    Full,
    /// Many calls were made and none gave an answer; the next read goes on.
    More,
}

/// Whether a reader is to synchronise.
#[derive(Clone, Copy, Debug, PartialEq, Eq)]
pub enum Phase {
    /// The view is what the device was at the last event.
    Plain,
    /// The next call synchronises first.
    Needed,
    /// It hands out synthesised events.
    Handing,
}

/// A client of a device: what a program has that opened its file. It is good for calls on the device that opened it, and its
/// number stands in steps and replies.
#[derive(Clone, Copy, Debug, PartialEq, Eq, Hash, PartialOrd, Ord)]
#[repr(transparent)]
pub struct Client(u32);

impl From<Client> for u32 {
    fn from(client: Client) -> u32 {
        client.0
    }
}

impl From<u32> for Client {
    fn from(number: u32) -> Client {
        Client(number)
    }
}

/// A device of a record's text or of a description, with its reader. It may go to another thread; threads that share one put it behind a lock.
pub struct Device {
    pub(crate) handle: Handle,
}

impl Device {
    /// The device of this number, from 0.
    pub fn new(text: &str, number: u32) -> Result<Device, NotMade> {
        let mut device = Device { handle: Handle::NOTHING };
        let (mut line, mut cause) = (0, 0);
        // SAFETY: the text is as long as it says, and the others are places of their own.
        let status = unsafe {
            sys::inputplay_device_new(text.as_ptr(), text.len(), number, &mut device.handle, &mut line, &mut cause)
        };
        check_made(status, line, cause)?;
        Ok(device)
    }

    /// The device that has this description.
    pub fn of(description: &Description) -> Result<Device, NotMade> {
        let raw = description.raw().map_err(NotMade::Description)?;
        let mut device = Device { handle: Handle::NOTHING };
        let mut cause = 0;
        // SAFETY: all are places of their own.
        let status = unsafe { sys::inputplay_device_of(raw, &mut device.handle, &mut cause) };
        match Cause::of(cause) {
            Some(cause) => Err(NotMade::Description(cause)),
            None => check(status).map(|()| device).map_err(NotMade::Call),
        }
    }

    /// Makes a step. What it reads stands at the front of the arrays.
    pub fn step(&mut self, step: &Step, events: &mut [Event], cells: &mut [i32]) -> Result<Reply, Error> {
        let mut reply = Reply::default();
        // SAFETY: the arrays are as long as they say, and all are places of their own.
        check(unsafe {
            sys::inputplay_step(
                &mut self.handle,
                step,
                &mut reply,
                events.as_mut_ptr(),
                events.len(),
                cells.as_mut_ptr(),
                cells.len(),
            )
        })?;
        Ok(reply)
    }

    fn must(&mut self, step: &Step) -> Result<Reply, Error> {
        let reply = self.step(step, &mut [], &mut [])?;
        if reply.reply == replies::REFUSED {
            check_step(reply.why)?;
        }
        Ok(reply)
    }

    /// Injects an event at a moment in microseconds, and gives its place.
    pub fn inject(&mut self, kind: u16, code: u16, value: i32, now: u64) -> Result<u32, Error> {
        let (mut at, mut why) = (0, 0);
        // SAFETY: all are places of their own.
        check(unsafe { sys::inputplay_inject(&mut self.handle, kind, code, value, now, &mut at, &mut why) })?;
        check_step(why)?;
        Ok(at)
    }

    /// Injects events, each at its own moment, at most 4096, and gives how many the history had room for.
    pub fn inject_all(&mut self, events: &[Stamped]) -> Result<u32, Error> {
        let (mut from, mut count) = (0, 0);
        // SAFETY: the array is as long as it says, and the others are places of their own.
        check(unsafe {
            sys::inputplay_inject_all(&mut self.handle, events.as_ptr(), events.len(), &mut from, &mut count)
        })?;
        Ok(count)
    }

    /// The first of the events that wait for the device's owner, as many as fit: how many were taken, or `None` where as many
    /// calls are kept as may be.
    pub fn feedback(&mut self, events: &mut [Event]) -> Option<usize> {
        let (mut at, mut count, mut full) = (0, 0, 0);
        // SAFETY: the array is as long as it says, and the others are places of their own. A device is kept, so no other
        // status comes than 0.
        let _ = unsafe {
            sys::inputplay_feedback(
                &mut self.handle,
                events.as_mut_ptr(),
                events.len(),
                &mut at,
                &mut count,
                &mut full,
            )
        };
        (full == 0).then_some(count as usize)
    }

    /// Opens a client for the joystick client and asks for its whole state; gives the client's number.
    pub fn start_joystick(&mut self) -> Result<u32, Error> {
        let (mut client, mut why) = (0, 0);
        // SAFETY: all are places of their own.
        check(unsafe { sys::inputplay_joy_start(&mut self.handle, &mut client, &mut why) })?;
        check_step(why)?;
        Ok(client)
    }

    /// The joystick client's next record or answer.
    pub fn read_joystick(&mut self) -> JoyRead {
        let (mut record, mut told, mut place) = ([0; 8], 0, 0);
        // SAFETY: all are places of their own. A device is kept, so no other status comes than 0.
        let _ = unsafe { sys::inputplay_joy_read(&mut self.handle, record.as_mut_ptr(), &mut told, &mut place) };
        match told {
            0 => JoyRead::Record(record),
            1 => JoyRead::Frame(place),
            2 => JoyRead::Again,
            3 => JoyRead::NoDevice,
            4 => JoyRead::Closed,
            5 => JoyRead::Full,
            _ => JoyRead::More,
        }
    }

    /// How the buttons and axes stand, as the joystick client's records tell.
    pub fn picture(&mut self) -> Picture {
        let mut picture = Picture { buttons: 0, axes: [0; 64] };
        // SAFETY: both are places of their own. A device is kept, so no other status comes than 0.
        let _ = unsafe { sys::inputplay_joy_picture(&mut self.handle, &mut picture) };
        picture
    }

    /// Injects the SYN_REPORT that ends a frame.
    pub fn report(&mut self, now: u64) -> Result<u32, Error> {
        self.inject(EV_SYN, 0, 0, now)
    }

    /// Opens a client.
    pub fn open(&mut self) -> Result<Client, Error> {
        let reply = self.must(&Step::open())?;
        Ok(Client(reply.client))
    }

    /// Reads events, as many as are there and fit, and gives their number.
    pub fn read(&mut self, client: Client, events: &mut [Event]) -> Result<usize, Error> {
        let (mut at, mut taken, mut why) = (0, 0, 0);
        let room = events.len().min(4096);
        // SAFETY: the array is at least as long as it says, and the others are places of their own.
        check(unsafe {
            sys::inputplay_read(
                &mut self.handle,
                client.0,
                events.as_mut_ptr(),
                room,
                &mut at,
                &mut taken,
                &mut why,
            )
        })?;
        check_step(why)?;
        Ok(taken as usize)
    }

    /// Copies the steps that the device accepted, from a place on, as many as fit, and gives how many there are from there on;
    /// `None` where it accepted fewer.
    pub fn history(&mut self, from: usize, steps: &mut [Step]) -> Option<usize> {
        let mut left = 0;
        // SAFETY: the array is as long as it says, and the others are places of their own.
        let status = unsafe {
            sys::inputplay_history(&mut self.handle, from, steps.as_mut_ptr(), steps.len(), &mut left)
        };
        check(status).ok().map(|()| left)
    }

    /// Which keys are down, as bits. The client's queued key events go.
    pub fn keys(&mut self, client: Client) -> Result<[u64; 12], Error> {
        Ok(self.must(&Step::get_keys(client))?.words)
    }

    /// Takes the grab.
    pub fn grab(&mut self, client: Client) -> Result<(), Error> {
        self.must(&Step::grab(client)).map(|_| ())
    }

    /// Gives up the grab.
    pub fn ungrab(&mut self, client: Client) -> Result<(), Error> {
        self.must(&Step::ungrab(client)).map(|_| ())
    }

    /// Closes a client.
    pub fn close(&mut self, client: Client) -> Result<(), Error> {
        self.must(&Step::close(client)).map(|_| ())
    }

    /// Opens a client for the reader and asks for its whole state; gives the client's number, of which `Client::from` makes
    /// what a step takes.
    pub fn start_reader(&mut self) -> Result<u32, Error> {
        let (mut client, mut why) = (0, 0);
        // SAFETY: all are places of their own.
        check(unsafe { sys::inputplay_reader_start(&mut self.handle, &mut client, &mut why) })?;
        check_step(why)?;
        Ok(client)
    }

    /// The reader's next event.
    pub fn next(&mut self, mode: Mode) -> Next {
        let (mut event, mut told) = (Event::default(), 0);
        // SAFETY: all are places of their own. A device is kept and the mode is one, so no other status comes than 0.
        let _ = unsafe { sys::inputplay_reader_next(&mut self.handle, mode as u32, &mut event, &mut told) };
        match told {
            0 => Next::Event(event),
            1 => Next::Dropped(event),
            2 => Next::Sync(event),
            3 => Next::Again,
            4 => Next::Synced,
            5 => Next::NoDevice,
            6 => Next::Closed,
            _ => Next::Full,
        }
    }

    /// The events that are there. Behind a SYN_DROPPED the reader synchronises, and its events are given too.
    pub fn events(&mut self) -> Events<'_> {
        let mode = if self.reader_state().1 == Phase::Plain { Mode::Normal } else { Mode::Sync };
        Events { device: self, mode }
    }

    /// The call of this number, from 0, that the reader's start or its last `next` made, if it made so many.
    pub fn reader_call(&mut self, index: usize) -> Option<(Step, Reply)> {
        let (mut step, mut reply) = (Step::default(), Reply::default());
        // SAFETY: all are places of their own.
        let status = unsafe { sys::inputplay_reader_call(&mut self.handle, index, &mut step, &mut reply) };
        check(status).ok().map(|()| (step, reply))
    }

    /// Has the reader synchronise before its next event.
    pub fn force_sync(&mut self) {
        // SAFETY: it is a place of its own. A device is kept, so no other status comes than 0.
        let _ = unsafe { sys::inputplay_reader_force_sync(&mut self.handle) };
    }

    /// What the reader knows of a key, a switch, an LED or an axis, where it keeps that.
    pub fn value(&mut self, kind: u16, code: u16) -> Option<i32> {
        let mut value = 0;
        // SAFETY: all are places of their own.
        let status = unsafe { sys::inputplay_reader_value(&mut self.handle, kind, code, &mut value) };
        check(status).ok().map(|()| value)
    }

    /// What the reader knows of a slot on an axis, where it keeps that.
    pub fn slot_value(&mut self, slot: u32, code: u16) -> Option<i32> {
        let mut value = 0;
        // SAFETY: all are places of their own.
        let status = unsafe { sys::inputplay_reader_slot_value(&mut self.handle, slot, code, &mut value) };
        check(status).ok().map(|()| value)
    }

    /// The reader's client, its phase and its current slot.
    pub fn reader_state(&mut self) -> (u32, Phase, i32) {
        let (mut client, mut phase, mut slot) = (0, 0, 0);
        // SAFETY: all are places of their own. A device is kept, so no other status comes than 0.
        let _ = unsafe { sys::inputplay_reader_state(&mut self.handle, &mut client, &mut phase, &mut slot) };
        let phase = match phase {
            0 => Phase::Plain,
            1 => Phase::Needed,
            _ => Phase::Handing,
        };
        (client, phase, slot)
    }
}

impl Drop for Device {
    fn drop(&mut self) {
        // SAFETY: the handle was made by `Device::new`, and is used no more.
        unsafe { sys::inputplay_free(&mut self.handle) }
    }
}

/// The events that a reader has, until nothing is there.
pub struct Events<'d> {
    device: &'d mut Device,
    mode: Mode,
}

impl Iterator for Events<'_> {
    type Item = Event;

    fn next(&mut self) -> Option<Event> {
        loop {
            match self.device.next(self.mode) {
                Next::Event(event) => return Some(event),
                Next::Dropped(event) | Next::Sync(event) => {
                    self.mode = Mode::Sync;
                    return Some(event);
                }
                Next::Synced => self.mode = Mode::Normal,
                _ => return None,
            }
        }
    }
}
