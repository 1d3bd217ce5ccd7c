//! What a device tells without a step: nothing is entered in its history, and no queue loses an event.

use crate::device::{Client, Device};
use crate::errors::check;
use crate::step::Clock;
use crate::sys::{self, Info, Limits, RawClient, RawRepeat};

/// The most clients that a device has open at once.
pub const CLIENTS_MAX: usize = 64;

/// A client, as it stands.
#[derive(Clone, Copy, Debug, PartialEq, Eq)]
pub struct ClientState {
    /// By which its events have their times.
    pub clock: Clock,
    /// Whether it was revoked.
    pub revoked: bool,
    /// Whether it holds the grab.
    pub grabs: bool,
}

/// The autorepeat of a device: its settings, and its timer.
#[derive(Clone, Copy, Debug, PartialEq, Eq)]
pub struct Repeat {
    /// Milliseconds from a press to the first repeat (`REP_DELAY`).
    pub delay: i32,
    /// Milliseconds from one repeat to the next (`REP_PERIOD`).
    pub period: i32,
    /// The key that the timer was last armed for; 0 before any.
    pub key: u16,
    /// The moment from which on a tick fires it, in microseconds, where it is armed.
    pub due: Option<u64>,
}

impl Device {
    /// How many events a client could read now; `None` where it is not open.
    pub fn visible(&mut self, client: Client) -> Option<u32> {
        let mut count = 0;
        // SAFETY: both are places of their own.
        let status = unsafe { sys::inputplay_visible(&mut self.handle, client.into(), &mut count) };
        check(status).ok().map(|()| count)
    }

    /// Writes the open clients that could read something now (`poll`) to the front of the array, by ascending numbers, as many
    /// as fit, and gives how many there are in all, at most [`CLIENTS_MAX`].
    pub fn readable(&mut self, clients: &mut [Client]) -> usize {
        let mut count = 0;
        // SAFETY: the array is as long as it says, a client is its number alone, and the others are places of their own. A
        // device is kept, so no other status comes than 0.
        let _ = unsafe {
            sys::inputplay_readable(&mut self.handle, clients.as_mut_ptr().cast(), clients.len(), &mut count)
        };
        count as usize
    }

    /// How a client stands; `None` where it is not open.
    pub fn client_state(&mut self, client: Client) -> Option<ClientState> {
        let mut raw = RawClient::default();
        // SAFETY: both are places of their own.
        let status = unsafe { sys::inputplay_client(&mut self.handle, client.into(), &mut raw) };
        check(status).ok()?;
        Some(ClientState { clock: Clock::of(raw.clock)?, revoked: raw.revoked != 0, grabs: raw.grabs != 0 })
    }

    /// A word of a client's mask of a type (`EVIOCGMASK`): bit k for the code 64 * word + k, and of `EV_SYN` for a type. `None`
    /// where the client is not open, the type has no mask, or the mask has no such word.
    pub fn mask(&mut self, client: Client, kind: u16, word: u16) -> Option<u64> {
        let mut bits = 0;
        // SAFETY: both are places of their own.
        let status = unsafe { sys::inputplay_client_mask(&mut self.handle, client.into(), kind, word, &mut bits) };
        check(status).ok().map(|()| bits)
    }

    /// The codes of a type that the device supports (`EVIOCGBIT`), as bits; of `EV_SYN` its types.
    pub fn codes(&mut self, kind: u16) -> [u64; 12] {
        let mut words = [0; 12];
        // SAFETY: both are places of their own. A device is kept, so no other status comes than 0.
        let _ = unsafe { sys::inputplay_device_bits(&mut self.handle, kind, words.as_mut_ptr()) };
        words
    }

    /// The keys that are down, or the switches, LEDs or sounds that are on, as bits; `None` for another type.
    pub fn state(&mut self, kind: u16) -> Option<[u64; 12]> {
        let mut words = [0; 12];
        // SAFETY: both are places of their own.
        let status = unsafe { sys::inputplay_device_state(&mut self.handle, kind, words.as_mut_ptr()) };
        check(status).ok().map(|()| words)
    }

    /// An axis, which is zeros where the device does not have it; `None` where there is no such code.
    pub fn axis(&mut self, code: u16) -> Option<Info> {
        let mut info = Info::default();
        // SAFETY: both are places of their own.
        let status = unsafe { sys::inputplay_device_axis(&mut self.handle, code, &mut info) };
        check(status).ok().map(|()| info)
    }

    /// The value of a slot on an axis of slots, as the device has it; `None` where there is no such slot or no such axis of
    /// slots.
    pub fn slot(&mut self, slot: u32, code: u16) -> Option<i32> {
        let mut value = 0;
        // SAFETY: both are places of their own.
        let status = unsafe { sys::inputplay_device_slot(&mut self.handle, slot, code, &mut value) };
        check(status).ok().map(|()| value)
    }

    /// The numbers of its description.
    pub fn limits(&mut self) -> Limits {
        let mut limits = Limits::default();
        // SAFETY: both are places of their own. A device is kept, so no other status comes than 0.
        let _ = unsafe { sys::inputplay_device_limits(&mut self.handle, &mut limits) };
        limits
    }

    /// The settings of the autorepeat as they are now, and its timer.
    pub fn repeat(&mut self) -> Repeat {
        let mut raw = RawRepeat::default();
        // SAFETY: both are places of their own. A device is kept, so no other status comes than 0.
        let _ = unsafe { sys::inputplay_device_repeat(&mut self.handle, &mut raw) };
        let due = (raw.armed != 0).then_some(raw.due);
        Repeat { delay: raw.delay, period: raw.period, key: raw.key as u16, due }
    }
}
