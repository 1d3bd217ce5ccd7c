//! The description of a device without a text: what evdev tells of one.

use crate::codes::{EV_KEY, EV_LED, EV_MSC, EV_REL, EV_SND, EV_SW};
use crate::errors::Cause;
use crate::sys::{filters, Info, RawDescription, RawFilter};

/// What a device is. It begins with `EV_SYN` alone, frames of at most 16 events and a history of at most 1,048,576 steps, and
/// [`Device::of`](crate::Device::of) makes the device.
///
/// ```
/// use inputplay::codes::{ABS_X, EV_KEY, KEY_A};
/// use inputplay::{Axis, Description, Device};
///
/// let description = Description::new().code(EV_KEY, KEY_A).axis(ABS_X, Axis { maximum: 255, ..Axis::default() });
/// let mut pad = Device::of(&description).unwrap();
/// assert_eq!(pad.codes(EV_KEY)[0], 1 << KEY_A);
/// ```
#[derive(Clone, Debug, PartialEq, Eq)]
pub struct Description {
    raw: RawDescription,
    // A code was given that no word has.
    has_misfit: bool,
}

impl Default for Description {
    fn default() -> Description {
        Description::new()
    }
}

impl Description {
    /// A device with `EV_SYN` alone.
    pub const fn new() -> Description {
        Description { raw: RawDescription::ZEROS, has_misfit: false }
    }

    /// With a type beside those of its codes, as `EV_REP`.
    pub fn kind(mut self, kind: u16) -> Description {
        self.has_misfit |= !set_bit(core::slice::from_mut(&mut self.raw.types), kind);
        self
    }

    /// With a code of `EV_KEY`, `EV_REL`, `EV_MSC`, `EV_SW`, `EV_LED` or `EV_SND`. Another one is a bad code, and the device
    /// is not made.
    pub fn code(mut self, kind: u16, code: u16) -> Description {
        let words = match kind {
            EV_KEY => &mut self.raw.keys[..],
            EV_REL => core::slice::from_mut(&mut self.raw.relatives),
            EV_MSC => core::slice::from_mut(&mut self.raw.miscs),
            EV_SW => core::slice::from_mut(&mut self.raw.switches),
            EV_LED => core::slice::from_mut(&mut self.raw.leds),
            EV_SND => core::slice::from_mut(&mut self.raw.sounds),
            _ => &mut [],
        };
        self.has_misfit |= !set_bit(words, code);
        self
    }

    /// With an axis.
    pub fn axis(mut self, code: u16, info: Info) -> Description {
        match self.raw.infos.get_mut(usize::from(code)) {
            Some(place) => *place = info,
            None => self.has_misfit = true,
        }
        self.has_misfit |= !set_bit(core::slice::from_mut(&mut self.raw.axes), code);
        self
    }

    /// With so many slots, 1 to 256.
    pub fn slots(mut self, count: u32) -> Description {
        self.raw.slots = count;
        self
    }

    /// With frames of at most so many events, 2 to 512.
    pub fn hint(mut self, count: u32) -> Description {
        self.raw.hint = count;
        self
    }

    /// With a history of at most so many steps, 1 to 8,388,608.
    pub fn log(mut self, count: u32) -> Description {
        self.raw.log = count;
        self
    }

    /// With clocks that are so far ahead of the moments, in microseconds.
    pub fn offsets(mut self, realtime: u64, boottime: u64) -> Description {
        (self.raw.realtime, self.raw.boottime) = (realtime, boottime);
        self
    }

    /// With a filter that eats each event of a code.
    pub fn eat(self, kind: u16, code: u16) -> Description {
        self.filter(RawFilter { filter: filters::EAT, kind, code, ..RawFilter::ZEROS })
    }

    /// With a filter that eats each autorepeat.
    pub fn norepeat(self) -> Description {
        self.filter(RawFilter { filter: filters::NOREPEAT, ..RawFilter::ZEROS })
    }

    /// With a filter that eats the holds of the second key that start while the first one is down.
    pub fn chord(self, first: u16, second: u16) -> Description {
        self.filter(RawFilter { filter: filters::CHORD, code: first, second, ..RawFilter::ZEROS })
    }

    /// With a filter that eats the holds of a key that start less than so many microseconds, 1 to 1,000,000, after a release
    /// that it did not eat.
    pub fn bounce(self, code: u16, micros: u32) -> Description {
        self.filter(RawFilter { filter: filters::BOUNCE, code, micros, ..RawFilter::ZEROS })
    }

    // More of them than there is room for are refused by their count.
    fn filter(mut self, filter: RawFilter) -> Description {
        if let Some(place) = self.raw.filters.get_mut(self.raw.filter_count as usize) {
            *place = filter;
        }
        self.raw.filter_count += 1;
        self
    }

    /// As the library takes it.
    pub(crate) fn raw(&self) -> Result<&RawDescription, Cause> {
        if self.has_misfit {
            return Err(Cause::BadCode);
        }
        Ok(&self.raw)
    }
}

/// Sets a bit of words of 64 bits, if they have it, and says whether they do.
fn set_bit(words: &mut [u64], number: u16) -> bool {
    match words.get_mut(usize::from(number / 64)) {
        Some(word) => {
            *word |= 1 << (number % 64);
            true
        }
        None => false,
    }
}
