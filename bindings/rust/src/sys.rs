//! The declarations of `include/inputplay.h`.

use core::ffi::c_void;
use core::ptr;

/// The version of the interface that these declarations are of.
pub const ABI: u32 = 2;

#[repr(C)]
pub struct Handle {
    pub kind: u32,
    pub at: *mut c_void,
}

// SAFETY: what a handle keeps is reached by it alone, and each call is over before the next one begins, since all take it by
// `&mut`. The library keeps nothing outside of handles, neither for a thread nor for all of them, and what one thread got of
// malloc another one may free. Nothing makes it `Sync`: a call that only looks takes what is kept out and puts it back.
unsafe impl Send for Handle {}

impl Handle {
    pub const NOTHING: Handle = Handle { kind: 0, at: ptr::null_mut() };
}

/// An axis (`struct input_absinfo`).
#[repr(C)]
#[derive(Clone, Copy, Debug, Default, PartialEq, Eq)]
pub struct Info {
    /// Its value.
    pub value: i32,
    /// Its least value.
    pub minimum: i32,
    /// Its greatest value.
    pub maximum: i32,
    /// By how much a value may differ that is filtered out.
    pub fuzz: i32,
    /// What a joystick takes for the middle.
    pub flat: i32,
    /// Units a millimetre, or a radian.
    pub resolution: i32,
}

/// A step of a device: its number, and what it takes. It is made by the functions of its name, as [`Step::read`].
#[repr(C)]
#[derive(Clone, Copy, Debug, Default, PartialEq, Eq)]
pub struct Step {
    /// Which step it is, of [`steps`](crate::steps).
    pub step: u32,
    /// The number of a client.
    pub client: u32,
    /// The type of an event or of a mask.
    pub kind: u16,
    /// The code of an event or an axis, or the number of a mask's word.
    pub code: u16,
    /// The value of an event.
    pub value: i32,
    /// The moment in microseconds.
    pub now: u64,
    /// How many events are read at most.
    pub count: u32,
    /// The number of a clock: see [`Clock`](crate::Clock).
    pub clock: u32,
    /// A word of a mask.
    pub bits: u64,
    /// What an axis is set to.
    pub info: Info,
}

/// A reply to a step. What it does not tell is 0.
#[repr(C)]
#[derive(Clone, Copy, Debug, Default, PartialEq, Eq)]
pub struct Reply {
    /// Which reply it is, of [`replies`](crate::replies).
    pub reply: u32,
    /// The step's place in the history, or where it was not entered the history's length.
    pub at: u32,
    /// The number of the client that was opened.
    pub client: u32,
    /// How many there are: see [`replies`](crate::replies).
    pub count: u32,
    /// The slot that was announced last.
    pub slot: i32,
    /// Why the step was refused: see [`Reply::refusal`].
    pub why: u32,
    /// Bit i of the 768 for code i.
    pub words: [u64; 12],
    /// The axis that was asked for.
    pub info: Info,
}

/// An event as a client reads it.
#[repr(C)]
#[derive(Clone, Copy, Debug, Default, PartialEq, Eq)]
pub struct Event {
    /// Its type.
    pub kind: u16,
    /// Its code.
    pub code: u16,
    /// Its value.
    pub value: i32,
    /// When its frame ended, in microseconds.
    pub time: u64,
    /// The place in the history of the step that ended its frame.
    pub place: u32,
}

/// An event with its moment.
#[repr(C)]
#[derive(Clone, Copy, Debug, Default, PartialEq, Eq)]
pub struct Stamped {
    /// Its type.
    pub kind: u16,
    /// Its code.
    pub code: u16,
    /// Its value.
    pub value: i32,
    /// The moment in microseconds.
    pub now: u64,
}

/// How the buttons and axes of a joystick client stand.
#[repr(C)]
#[derive(Clone, Copy, Debug, PartialEq, Eq)]
pub struct Picture {
    /// Bit k of the 64 for button k.
    pub buttons: u64,
    /// The value of each axis.
    pub axes: [i16; 64],
}

#[repr(C)]
#[derive(Default)]
pub struct RawClient {
    pub clock: u32,
    pub revoked: u32,
    pub grabs: u32,
}

/// The numbers of a device's description.
#[repr(C)]
#[derive(Clone, Copy, Debug, Default, PartialEq, Eq)]
pub struct Limits {
    /// How many slots it has.
    pub slots: u32,
    /// How many events a frame may gather.
    pub hint: u32,
    /// How many steps its history may have.
    pub log: u32,
    /// How many places the ring of a client has.
    pub ring: u32,
    /// How far the realtime clock is ahead of the moments, in microseconds.
    pub realtime: u64,
    /// How far the boottime clock is ahead of them.
    pub boottime: u64,
}

#[repr(C)]
#[derive(Default)]
pub struct RawRepeat {
    pub delay: i32,
    pub period: i32,
    pub armed: u32,
    pub key: u32,
    pub due: u64,
}

/// The numbers of filters.
pub mod filters {
    pub const EAT: u32 = 0;
    pub const NOREPEAT: u32 = 1;
    pub const CHORD: u32 = 2;
    pub const BOUNCE: u32 = 3;
}

#[repr(C)]
#[derive(Clone, Copy, Debug, PartialEq, Eq)]
pub struct RawFilter {
    pub filter: u32,
    pub micros: u32,
    pub kind: u16,
    pub code: u16,
    pub second: u16,
    pub padding: u16,
}

impl RawFilter {
    pub const ZEROS: RawFilter = RawFilter { filter: 0, micros: 0, kind: 0, code: 0, second: 0, padding: 0 };
}

#[repr(C)]
#[derive(Clone, Debug, PartialEq, Eq)]
pub struct RawDescription {
    pub types: u64,
    pub keys: [u64; 12],
    pub relatives: u64,
    pub axes: u64,
    pub miscs: u64,
    pub switches: u64,
    pub leds: u64,
    pub sounds: u64,
    pub infos: [Info; 64],
    pub slots: u32,
    pub hint: u32,
    pub log: u32,
    pub filter_count: u32,
    pub realtime: u64,
    pub boottime: u64,
    pub filters: [RawFilter; 8],
}

impl RawDescription {
    pub const ZEROS: RawDescription = RawDescription {
        types: 0,
        keys: [0; 12],
        relatives: 0,
        axes: 0,
        miscs: 0,
        switches: 0,
        leds: 0,
        sounds: 0,
        infos: [Info { value: 0, minimum: 0, maximum: 0, fuzz: 0, flat: 0, resolution: 0 }; 64],
        slots: 0,
        hint: 0,
        log: 0,
        filter_count: 0,
        realtime: 0,
        boottime: 0,
        filters: [RawFilter::ZEROS; 8],
    };
}

/// How much a record has.
#[repr(C)]
#[derive(Clone, Copy, Debug, Default, PartialEq, Eq)]
pub struct Counts {
    /// How many devices.
    pub devices: u32,
    /// How many actors.
    pub actors: u32,
    /// How many action lines.
    pub lines: u32,
}

#[repr(C)]
#[derive(Default)]
pub struct RawLine {
    pub actor: u32,
    pub command: u32,
    pub count: u32,
    pub step: Step,
}

#[rustfmt::skip]
extern "C" {
    pub fn inputplay_abi() -> u32;
    pub fn inputplay_device_new(text: *const u8, len: usize, number: u32, handle: *mut Handle, line: *mut u32, cause: *mut u32) -> u32;
    pub fn inputplay_device_of(description: *const RawDescription, handle: *mut Handle, cause: *mut u32) -> u32;
    pub fn inputplay_step(handle: *mut Handle, step: *const Step, reply: *mut Reply, events: *mut Event, event_count: usize, cells: *mut i32, cell_count: usize) -> u32;
    pub fn inputplay_inject(handle: *mut Handle, kind: u16, code: u16, value: i32, now: u64, at: *mut u32, why: *mut u32) -> u32;
    pub fn inputplay_inject_all(handle: *mut Handle, events: *const Stamped, event_count: usize, from: *mut u32, count: *mut u32) -> u32;
    pub fn inputplay_read(handle: *mut Handle, client: u32, events: *mut Event, event_count: usize, at: *mut u32, count: *mut u32, why: *mut u32) -> u32;
    pub fn inputplay_history(handle: *mut Handle, from: usize, steps: *mut Step, step_count: usize, left: *mut usize) -> u32;
    pub fn inputplay_feedback(handle: *mut Handle, events: *mut Event, event_count: usize, at: *mut u32, count: *mut u32, full: *mut u32) -> u32;
    pub fn inputplay_visible(handle: *mut Handle, client: u32, count: *mut u32) -> u32;
    pub fn inputplay_readable(handle: *mut Handle, clients: *mut u32, client_count: usize, count: *mut u32) -> u32;
    pub fn inputplay_client(handle: *mut Handle, client: u32, state: *mut RawClient) -> u32;
    pub fn inputplay_client_mask(handle: *mut Handle, client: u32, kind: u16, word: u16, bits: *mut u64) -> u32;
    pub fn inputplay_device_bits(handle: *mut Handle, kind: u16, words: *mut u64) -> u32;
    pub fn inputplay_device_state(handle: *mut Handle, kind: u16, words: *mut u64) -> u32;
    pub fn inputplay_device_axis(handle: *mut Handle, code: u16, info: *mut Info) -> u32;
    pub fn inputplay_device_slot(handle: *mut Handle, slot: u32, code: u16, value: *mut i32) -> u32;
    pub fn inputplay_device_limits(handle: *mut Handle, limits: *mut Limits) -> u32;
    pub fn inputplay_device_repeat(handle: *mut Handle, repeat: *mut RawRepeat) -> u32;
    pub fn inputplay_joy_start(handle: *mut Handle, client: *mut u32, why: *mut u32) -> u32;
    pub fn inputplay_joy_read(handle: *mut Handle, record: *mut u8, told: *mut u32, place: *mut u32) -> u32;
    pub fn inputplay_joy_picture(handle: *mut Handle, picture: *mut Picture) -> u32;
    pub fn inputplay_reader_start(handle: *mut Handle, client: *mut u32, why: *mut u32) -> u32;
    pub fn inputplay_reader_next(handle: *mut Handle, mode: u32, event: *mut Event, told: *mut u32) -> u32;
    pub fn inputplay_reader_force_sync(handle: *mut Handle) -> u32;
    pub fn inputplay_reader_value(handle: *mut Handle, kind: u16, code: u16, value: *mut i32) -> u32;
    pub fn inputplay_reader_slot_value(handle: *mut Handle, slot: u32, code: u16, value: *mut i32) -> u32;
    pub fn inputplay_reader_state(handle: *mut Handle, client: *mut u32, phase: *mut u32, slot: *mut i32) -> u32;
    pub fn inputplay_reader_call(handle: *mut Handle, index: usize, step: *mut Step, reply: *mut Reply) -> u32;
    pub fn inputplay_record_new(text: *const u8, len: usize, handle: *mut Handle, line: *mut u32, cause: *mut u32) -> u32;
    pub fn inputplay_record_load(handle: *mut Handle, line: u32, bytes: *const u8, len: usize) -> u32;
    pub fn inputplay_record_file(handle: *mut Handle, line: u32, out: *mut u8, out_len: usize, len: *mut usize) -> u32;
    pub fn inputplay_record_play(handle: *mut Handle, history: u32, len: *mut usize) -> u32;
    pub fn inputplay_record_migrate(handle: *mut Handle, len: *mut usize) -> u32;
    pub fn inputplay_record_text(handle: *mut Handle, from: usize, out: *mut u8, out_len: usize, left: *mut usize) -> u32;
    pub fn inputplay_record_counts(handle: *mut Handle, counts: *mut Counts) -> u32;
    pub fn inputplay_record_device(handle: *mut Handle, device: u32, out: *mut u8, out_len: usize, len: *mut usize) -> u32;
    pub fn inputplay_record_actor(handle: *mut Handle, actor: u32, role: *mut u32, device: *mut u32, out: *mut u8, out_len: usize, len: *mut usize) -> u32;
    pub fn inputplay_record_line(handle: *mut Handle, line: u32, out: *mut RawLine) -> u32;
    pub fn inputplay_record_events(handle: *mut Handle, line: u32, from: usize, events: *mut Stamped, event_count: usize, left: *mut usize) -> u32;
    pub fn inputplay_free(handle: *mut Handle);
}
