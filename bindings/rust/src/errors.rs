//! What comes where a call is refused.

use core::fmt;

/// A call was refused.
#[derive(Clone, Copy, Debug, PartialEq, Eq)]
pub enum Error {
    /// A number is none that the call has, or an array is too short.
    BadArgument,
    /// The bytes are no stream.
    BadStream,
    /// Memory ran out.
    NoMemory,
    /// The text is too long.
    TooLong,
    /// The device refused the step.
    Refused(Refusal),
    /// Another status, which no call of this crate should see.
    Other(u32),
}

/// Why nothing was made of a text or of a description.
#[derive(Clone, Copy, Debug, PartialEq, Eq)]
pub enum NotMade {
    /// This line of the text has no meaning, for this cause.
    Line(u32, Cause),
    /// No device has such a description, for this cause.
    Description(Cause),
    /// The call was refused.
    Call(Error),
}

macro_rules! numbered {
    ($(#[$about:meta])* $name:ident { $($(#[$what:meta])* $variant:ident = $number:literal $text:literal),* $(,)? }) => {
        $(#[$about])*
        #[derive(Clone, Copy, Debug, PartialEq, Eq)]
        #[non_exhaustive]
        pub enum $name { $($(#[$what])* $variant = $number),* }

        impl $name {
            /// The one of this number, as the header has it, if there is one.
            pub const fn of(number: u32) -> Option<$name> {
                match number {
                    $($number => Some($name::$variant),)*
                    _ => None,
                }
            }

            /// Its number, as the header has it.
            pub const fn number(self) -> u32 {
                self as u32
            }
        }

        impl fmt::Display for $name {
            fn fmt(&self, f: &mut fmt::Formatter<'_>) -> fmt::Result {
                f.write_str(match self { $($name::$variant => $text),* })
            }
        }
    };
}

numbered! {
    /// Why a device refused a step.
    Refusal {
        /// The client is not open.
        BadClient = 1 "bad-client",
        /// The client was revoked.
        NoDevice = 2 "no-device",
        /// The device has no type of the kind.
        BadKind = 3 "bad-kind",
        /// The type has no such code.
        BadCode = 4 "bad-code",
        /// The fuzz is out of range.
        BadInfo = 5 "bad-info",
        /// A client holds the grab.
        Busy = 6 "busy",
        /// The client does not hold the grab.
        NotGrabber = 7 "not-grabber",
        /// As many clients are open as may be.
        TooMany = 8 "too-many",
        /// The history is full.
        LogFull = 9 "log-full",
        /// Memory ran out.
        NoMemory = 10 "no-memory",
    }
}

numbered! {
    /// Why a line of a record has no meaning.
    Cause {
        /// It holds a byte that is no text.
        NotText = 1 "not-text",
        /// The first line is no header.
        BadHeader = 2 "bad-header",
        /// It begins no line, or has another number of words.
        BadLine = 3 "bad-line",
        /// It stands where it may not.
        OutOfPlace = 4 "out-of-place",
        /// No actor has the name.
        NoActor = 5 "no-actor",
        /// The actor has no such command.
        BadCommand = 6 "bad-command",
        /// A word does not have its form or its range.
        BadWord = 7 "bad-word",
        /// It is given twice.
        Twice = 8 "twice",
        /// It is one more than there may be.
        TooMany = 9 "too-many",
        /// There is no such code.
        BadCode = 10 "bad-code",
        /// The axis is described wrongly.
        BadAxis = 11 "bad-axis",
        /// There may not be so many slots.
        BadSlots = 12 "bad-slots",
        /// The hint is out of range.
        BadHint = 13 "bad-hint",
        /// The log limit is out of range.
        BadLog = 14 "bad-log",
        /// The offset is out of range.
        BadOffset = 15 "bad-offset",
        /// There are eight filters already.
        BadFilter = 16 "bad-filter",
        /// It is of a stream, and comes of no text.
        BadStream = 17 "bad-stream",
    }
}

impl fmt::Display for Error {
    fn fmt(&self, f: &mut fmt::Formatter<'_>) -> fmt::Result {
        match self {
            Error::BadArgument => f.write_str("bad argument"),
            Error::BadStream => f.write_str("bad stream"),
            Error::NoMemory => f.write_str("out of memory"),
            Error::TooLong => f.write_str("too long"),
            Error::Refused(why) => why.fmt(f),
            Error::Other(status) => write!(f, "status {status}"),
        }
    }
}

impl fmt::Display for NotMade {
    fn fmt(&self, f: &mut fmt::Formatter<'_>) -> fmt::Result {
        match self {
            NotMade::Line(line, cause) => write!(f, "line {line}: {cause}"),
            NotMade::Description(cause) => cause.fmt(f),
            NotMade::Call(error) => error.fmt(f),
        }
    }
}

impl core::error::Error for Error {}
impl core::error::Error for NotMade {}

/// Nothing where a call was made, else why it was refused.
pub(crate) fn check(status: u32) -> Result<(), Error> {
    match status {
        0 => Ok(()),
        2 => Err(Error::BadArgument),
        3 => Err(Error::BadStream),
        5 => Err(Error::NoMemory),
        7 => Err(Error::TooLong),
        _ => Err(Error::Other(status)),
    }
}

/// Nothing where something was made of a text, else why not.
pub(crate) fn check_made(status: u32, line: u32, cause: u32) -> Result<(), NotMade> {
    match (status, Cause::of(cause)) {
        (1, Some(cause)) => Err(NotMade::Line(line, cause)),
        _ => check(status).map_err(NotMade::Call),
    }
}

/// Nothing where a step was not refused, else why.
pub(crate) fn check_step(why: u32) -> Result<(), Error> {
    match Refusal::of(why) {
        None => Ok(()),
        Some(why) => Err(Error::Refused(why)),
    }
}
