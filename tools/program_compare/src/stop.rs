//! Replies, why a command is not done, and tests that stand before calls of arrow2 that would panic.
use std::borrow::Cow;

use arrow2::error::Error;

use crate::words::{Item, Sort};

pub enum Stop {
    NotMet,
    Refused(Cow<'static, str>),
}

/// The reply to a command. Nothing was written where it is stopped.
pub type Reply = Result<&'static str, Stop>;

/// The reply of a command that was done and answers nothing else.
pub const DONE: Reply = Ok("ok");

/// The reply of a command whose answer was written already.
pub fn told(_written: ()) -> Reply {
    Ok("")
}

pub const NOT_UTF8: &str = "every text between two offsets must be UTF-8";

/// arrow2's refusals, in the texts of the program where they differ.
impl From<Error> for Stop {
    fn from(error: Error) -> Stop {
        let text = match error {
            Error::OutOfSpec(text) => text,
            Error::Overflow => return Stop::Refused(Cow::Borrowed("overflow")),
            Error::External(..) => return Stop::Refused(Cow::Borrowed(NOT_UTF8)),
            other => return Stop::Refused(Cow::Owned(other.to_string())),
        };
        let known = match text.as_str() {
            "offsets must be larger than 0" => "the first offset must not be negative",
            "offsets must be monotonically increasing" => "offsets must never fall",
            "Non-valid char boundary detected" => NOT_UTF8,
            "BinaryArray can only be initialized with DataType::Utf8 or DataType::LargeUtf8" => {
                "Utf8Array can only be initialized with DataType::Utf8 or DataType::LargeUtf8"
            }
            _ => return Stop::Refused(Cow::Owned(text)),
        };
        Stop::Refused(Cow::Borrowed(known))
    }
}

pub fn meet(holds: bool) -> Result<(), Stop> {
    if holds {
        Ok(())
    } else {
        Err(Stop::NotMet)
    }
}

pub fn refuse_if(fails: bool, why: &'static str) -> Result<(), Stop> {
    if fails {
        Err(Stop::Refused(Cow::Borrowed(why)))
    } else {
        Ok(())
    }
}

/// Asks that all items are of a sort.
pub fn all_fit<'s, 'a: 's>(mut items: impl Iterator<Item = &'s Item<'a>>, sort: Sort) -> Result<(), Stop> {
    meet(items.all(|item| item.sort() == sort))
}

/// Refuses what can't be had, where it is much: arrow2 would panic, or end the process.
pub fn ask_for(count: usize, width: usize) -> Result<(), Stop> {
    const MUCH: usize = 1 << 24;
    let is_had = count.checked_mul(width).is_some_and(|bytes| {
        let mut probe = Vec::<u8>::new();
        let is_had = bytes < MUCH || probe.try_reserve_exact(bytes).is_ok();
        // Else the compiler may leave the request out.
        std::hint::black_box(&mut probe);
        is_had
    });
    refuse_if(!is_had, "out of memory")
}

pub fn ask_for_slots(sort: Sort, count: usize) -> Result<(), Stop> {
    match sort {
        Sort::Value => ask_for(count, 8),
        Sort::Bit => ask_for(count / 8, 1),
        Sort::Bytes | Sort::Text => ask_for(count, 4),
    }
}
