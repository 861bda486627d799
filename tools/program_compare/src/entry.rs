//! The entries of a table, and what they tell.
use arrow2::array::{
    Array, BinaryArray, BooleanArray, MutableArray, MutableBinaryArray, MutableBinaryValuesArray, MutableBooleanArray,
    MutablePrimitiveArray, MutableUtf8Array, MutableUtf8ValuesArray, PrimitiveArray, Utf8Array,
};

use crate::print::{flag, list, number, type_word, Print};
use crate::stop::{meet, told, Reply, Stop};
use crate::words::{Sort, Turn};

#[derive(Clone)]
pub enum Entry {
    Prim(PrimitiveArray<i64>),
    Bool(BooleanArray),
    Bin(BinaryArray<i32>),
    Utf8(Utf8Array<i32>),
    MPrim(MutablePrimitiveArray<i64>),
    MBool(MutableBooleanArray),
    MBin(MutableBinaryArray<i32>),
    MUtf8(MutableUtf8Array<i32>),
    VBin(MutableBinaryValuesArray<i32>),
    VUtf8(MutableUtf8ValuesArray<i32>),
}

/// The same of any array, and something else of a builder.
macro_rules! frozen {
    ($entry:expr, $array:ident => $body:expr, $other:expr) => {
        match $entry {
            Entry::Prim($array) => $body,
            Entry::Bool($array) => $body,
            Entry::Bin($array) => $body,
            Entry::Utf8($array) => $body,
            _ => $other,
        }
    };
}
pub(crate) use frozen;

/// The same of any builder, and something else of an array.
macro_rules! builder {
    ($entry:expr, $array:ident => $body:expr, $other:expr) => {
        match $entry {
            Entry::MPrim($array) => $body,
            Entry::MBool($array) => $body,
            Entry::MBin($array) => $body,
            Entry::MUtf8($array) => $body,
            Entry::VBin($array) => $body,
            Entry::VUtf8($array) => $body,
            _ => $other,
        }
    };
}
pub(crate) use builder;

macro_rules! each {
    ($entry:expr, $array:ident => $body:expr) => {
        frozen!($entry, $array => $body, builder!($entry, $array => $body, unreachable!()))
    };
}

/// The same of any byte or text kind.
macro_rules! bytes_or_text {
    ($entry:expr, $array:ident => $body:expr) => {
        match $entry {
            Entry::Bin($array) => $body,
            Entry::Utf8($array) => $body,
            Entry::MBin($array) => $body,
            Entry::MUtf8($array) => $body,
            Entry::VBin($array) => $body,
            Entry::VUtf8($array) => $body,
            _ => return Err(Stop::NotMet),
        }
    };
}

impl Entry {
    pub fn sort(&self) -> Sort {
        match self {
            Entry::Prim(_) | Entry::MPrim(_) => Sort::Value,
            Entry::Bool(_) | Entry::MBool(_) => Sort::Bit,
            Entry::Bin(_) | Entry::MBin(_) | Entry::VBin(_) => Sort::Bytes,
            Entry::Utf8(_) | Entry::MUtf8(_) | Entry::VUtf8(_) => Sort::Text,
        }
    }

    pub fn len(&self) -> usize {
        each!(self, array => array.len())
    }

    pub fn tell_held(&self) -> Reply {
        Ok(flag(each!(self, array => array.validity().is_some())))
    }

    pub fn tell_type(&self) -> Reply {
        Ok(type_word(each!(self, array => array.data_type())))
    }

    pub fn tell_is_null(&self, place: usize) -> Reply {
        meet(place < self.len())?;
        frozen!(self, array => Ok(flag(array.is_null(place))), Err(Stop::NotMet))
    }

    pub fn tell_null_count(&self, out: &mut Vec<u8>) -> Reply {
        frozen!(self, array => told(number(array.null_count() as u64, out)), Err(Stop::NotMet))
    }

    pub fn tell_bytes(&self, out: &mut Vec<u8>) -> Reply {
        bytes_or_text!(self, array => told(array.values().as_slice().print(out)))
    }

    pub fn tell_offsets(&self, out: &mut Vec<u8>) -> Reply {
        let print = |offset: &i32, out: &mut Vec<u8>| number(*offset as u64, out);
        bytes_or_text!(self, array => told(list(array.offsets().iter(), out, print)))
    }

    pub fn tell_slots(&self, out: &mut Vec<u8>) -> Reply {
        each!(self, array => told(list(array.iter(), out, Print::print)))
    }

    /// Tells what is stored at a place.
    pub fn tell_value(&self, place: usize, out: &mut Vec<u8>) -> Reply {
        meet(place < self.len())?;
        frozen!(self, array => told(array.value(place).print(out)), match self {
            Entry::MUtf8(array) => told(array.value(place).print(out)),
            Entry::VBin(array) => told(array.value(place).print(out)),
            Entry::VUtf8(array) => told(array.value(place).print(out)),
            _ => Err(Stop::NotMet),
        })
    }

    /// Tells what the slot at a place shows.
    pub fn tell_slot(&self, place: usize, out: &mut Vec<u8>) -> Reply {
        meet(place < self.len())?;
        frozen!(self, array => told(array.get(place).print(out)), Err(Stop::NotMet))
    }

    pub fn tell_turns(&self, turns: &[Turn], out: &mut Vec<u8>) -> Reply {
        told(frozen!(self, array => print_turns(array.values_iter(), turns, out), match self {
            Entry::MPrim(array) => print_turns(array.values_iter(), turns, out),
            Entry::MBool(array) => print_turns(array.values_iter(), turns, out),
            Entry::MBin(array) => print_turns(array.values_iter(), turns, out),
            Entry::MUtf8(array) => print_turns(array.values_iter(), turns, out),
            Entry::VBin(array) => print_turns(array.iter(), turns, out),
            Entry::VUtf8(array) => print_turns(array.iter(), turns, out),
            _ => unreachable!(),
        }))
    }

    pub fn tell_equal(&self, other: &Entry) -> Reply {
        Ok(flag(match (self, other) {
            (Entry::MPrim(one), Entry::MPrim(other)) => one == other,
            (Entry::MBool(one), Entry::MBool(other)) => one == other,
            (Entry::MBin(one), Entry::MBin(other)) => one == other,
            (Entry::MUtf8(one), Entry::MUtf8(other)) => one == other,
            _ => return Err(Stop::NotMet),
        }))
    }
}

fn print_turns<T: Print>(
    mut items: impl DoubleEndedIterator<Item = T> + ExactSizeIterator,
    turns: &[Turn],
    out: &mut Vec<u8>,
) {
    let given = turns.iter().map(|turn| match *turn {
        Turn::Front => items.next(),
        Turn::Back => items.next_back(),
        Turn::Skip(count) => {
            // arrow2's own `nth` adds unchecked.
            let count = count.min(items.len());
            items.nth(count)
        }
    });
    list(given, out, Print::print);
}
