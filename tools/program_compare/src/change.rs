//! What changes an entry.
use arrow2::array::{
    BooleanArray, MutableArray, MutableBinaryArray, MutableBooleanArray, MutablePrimitiveArray, MutableUtf8Array,
    TryExtend, TryExtendFromSelf, TryPush,
};
use arrow2::bitmap::{Bitmap, MutableBitmap};
use arrow2::datatypes::{DataType, PhysicalType, PrimitiveType};
use either::Either::{self, Left, Right};

use crate::command::Named;
use crate::entry::{builder, frozen, Entry};
use crate::print::Print;
use crate::stop::{all_fit, ask_for, ask_for_slots, meet, told, Reply, Stop, DONE};
use crate::words::{bit_of, bytes_of, text_of, value_of, Item, Slot, Sort};

fn constant(length: usize, bit: bool) -> MutableBitmap {
    let mut bits = MutableBitmap::with_capacity(length);
    bits.extend_constant(length, bit);
    bits
}

/// Appends the rows of one byte or text builder to another. arrow2's call for it leaves a mask short where the other has
/// none, and copies the bytes before the other's first offset.
macro_rules! join {
    ($array:expr, $other:expr) => {
        if *$other.offsets().first() == 0 && $array.validity().is_some() == $other.validity().is_some() {
            $array.try_extend_from_self($other)?
        } else {
            $array.try_extend($other.iter())?
        }
    };
}

/// The same of builders with nulls: a mask is held where one of them held one.
macro_rules! join_with_nulls {
    ($array:expr, $other:expr) => {{
        if $other.validity().is_some() && $array.validity().is_none() {
            $array.set_validity(Some(constant($array.len(), true)));
        }
        join!($array, $other)
    }};
}

impl Entry {
    pub fn slice(&mut self, start: usize, count: usize) -> Reply {
        let length = self.len();
        meet(start <= length && count <= length - start)?;
        frozen!(self, array => array.slice(start, count), return Err(Stop::NotMet));
        DONE
    }

    pub fn set_mask(&mut self, mask: Option<MutableBitmap>) -> Reply {
        meet(mask.as_ref().map_or(true, |mask| mask.len() == self.len()))?;
        match self {
            Entry::MPrim(array) => array.set_validity(mask),
            Entry::MBin(array) => array.set_validity(mask),
            Entry::MUtf8(array) => array.set_validity(mask),
            _ => frozen!(self, array => array.set_validity(mask.map(Bitmap::from)), return Err(Stop::NotMet)),
        }
        DONE
    }

    pub fn apply_mask(&mut self, named: Named<'_>) -> Reply {
        let fill = match named {
            Named::Fill(Item::Bit(bit)) => Some(bit),
            Named::Fill(_) => return Err(Stop::NotMet),
            Named::Reverse => None,
        };
        let changed = |old: &Bitmap| match fill {
            Some(bit) => Bitmap::new_constant(bit, old.len()),
            None => Bitmap::from_trusted_len_iter(old.iter().rev()),
        };
        let changed_mut = |old: MutableBitmap| match fill {
            Some(bit) => constant(old.len(), bit),
            None => MutableBitmap::from_trusted_len_iter(old.iter().rev()),
        };
        match self {
            Entry::Prim(array) => array.apply_validity(|old| changed(&old)),
            Entry::Utf8(array) => array.apply_validity(|old| changed(&old)),
            Entry::Bool(array) => {
                let mask = array.validity().map(changed);
                array.set_validity(mask);
            }
            Entry::Bin(array) => {
                let mask = array.validity().map(changed);
                array.set_validity(mask);
            }
            Entry::MBin(array) => array.apply_validity(changed_mut),
            Entry::MUtf8(array) => array.apply_validity(changed_mut),
            _ => return Err(Stop::NotMet),
        }
        DONE
    }

    pub fn set_values(&mut self, items: &[Item<'_>]) -> Reply {
        meet(items.len() == self.len())?;
        all_fit(items.iter(), self.sort())?;
        let items = items.iter();
        match self {
            Entry::Prim(array) => array.set_values(items.map(Item::value).collect()),
            Entry::MPrim(array) => array.set_values(items.map(Item::value).collect()),
            Entry::Bool(array) => array.set_values(Bitmap::from_trusted_len_iter(items.map(Item::bit))),
            _ => return Err(Stop::NotMet),
        }
        DONE
    }

    pub fn apply_values(&mut self, named: Named<'_>) -> Reply {
        match (self, named) {
            (Entry::MPrim(array), Named::Fill(Item::Value(value))) => array.apply_values(|values| values.fill(value)),
            (Entry::MPrim(array), Named::Reverse) => array.apply_values(|values| values.reverse()),
            (Entry::Bool(array), Named::Fill(Item::Bit(bit))) => {
                array.apply_values_mut(|bits| *bits = constant(bits.len(), bit))
            }
            (Entry::Bool(array), Named::Reverse) => {
                array.apply_values_mut(|bits| *bits = MutableBitmap::from_trusted_len_iter(bits.iter().rev()))
            }
            _ => return Err(Stop::NotMet),
        }
        DONE
    }

    pub fn set(&mut self, place: usize, slot: Slot<'_>) -> Reply {
        meet(place < self.len())?;
        all_fit(slot.iter(), self.sort())?;
        match self {
            Entry::MPrim(array) => array.set(place, value_of(&slot)),
            Entry::MBool(array) => array.set(place, bit_of(&slot)),
            _ => return Err(Stop::NotMet),
        }
        DONE
    }

    pub fn write(&mut self, place: usize, item: Item<'_>) -> Reply {
        meet(place < self.len())?;
        match (self, item) {
            (Entry::Prim(array), Item::Value(value)) => match array.get_mut_values() {
                Some(values) => values[place] = value,
                None => return Ok("not given"),
            },
            (Entry::MPrim(array), Item::Value(value)) => array.values_mut_slice()[place] = value,
            _ => return Err(Stop::NotMet),
        }
        DONE
    }

    pub fn push(&mut self, slot: Slot<'_>) -> Reply {
        match (self, slot) {
            (Entry::MPrim(array), Some(Item::Value(value))) => array.push(Some(value)),
            (Entry::MPrim(array), None) => array.push(None),
            (Entry::MBool(array), Some(Item::Bit(bit))) => array.push(Some(bit)),
            (Entry::MBool(array), None) => array.push(None),
            (Entry::MBin(array), Some(Item::Bytes(bytes))) => array.try_push(Some(bytes))?,
            (Entry::MBin(array), None) => array.push_null(),
            (Entry::MUtf8(array), Some(Item::Text(text))) => array.try_push(Some(text))?,
            (Entry::MUtf8(array), None) => array.push_null(),
            (Entry::VBin(array), Some(Item::Bytes(bytes))) => array.try_push(bytes)?,
            (Entry::VUtf8(array), Some(Item::Text(text))) => array.try_push(text)?,
            _ => return Err(Stop::NotMet),
        }
        DONE
    }

    pub fn push_null(&mut self) -> Reply {
        builder!(self, array => array.push_null(), return Err(Stop::NotMet));
        DONE
    }

    /// Takes the last slot away and tells it.
    pub fn pop(&mut self, out: &mut Vec<u8>) -> Reply {
        told(match self {
            Entry::MPrim(array) => array.pop().print(out),
            Entry::MBool(array) => array.pop().print(out),
            Entry::MBin(array) => array.pop().as_deref().print(out),
            Entry::MUtf8(array) => array.pop().as_deref().print(out),
            Entry::VBin(array) => array.pop().as_deref().print(out),
            Entry::VUtf8(array) => array.pop().as_deref().print(out),
            _ => return Err(Stop::NotMet),
        })
    }

    pub fn extend(&mut self, slots: &[Slot<'_>]) -> Reply {
        all_fit(slots.iter().flatten(), self.sort())?;
        let slots = slots.iter();
        match self {
            Entry::MPrim(array) => array.extend(slots.map(value_of)),
            Entry::MBool(array) => array.extend(slots.map(bit_of)),
            Entry::MBin(array) => array.try_extend(slots.map(bytes_of))?,
            Entry::MUtf8(array) => array.try_extend(slots.map(text_of))?,
            _ => return Err(Stop::NotMet),
        }
        DONE
    }

    pub fn extend_values(&mut self, items: &[Item<'_>]) -> Reply {
        all_fit(items.iter(), self.sort())?;
        let items = items.iter();
        match self {
            Entry::MPrim(array) => array.extend_trusted_len_values(items.map(Item::value)),
            Entry::MBool(array) => array.extend_trusted_len_values(items.map(Item::bit)),
            // Not by `extend_values`, which panics on overflow.
            Entry::MBin(array) => array.try_extend(items.map(|item| Some(item.bytes())))?,
            Entry::MUtf8(array) => array.try_extend(items.map(|item| Some(item.text())))?,
            Entry::VBin(array) => array.try_extend(items.map(Item::bytes))?,
            Entry::VUtf8(array) => array.try_extend(items.map(Item::text))?,
            _ => return Err(Stop::NotMet),
        }
        DONE
    }

    pub fn extend_constant(&mut self, count: usize, slot: Slot<'_>) -> Reply {
        let Entry::MPrim(array) = self else {
            return Err(Stop::NotMet);
        };
        meet(slot.map_or(true, |item| item.sort() == Sort::Value))?;
        ask_for(count, 8)?;
        array.extend_constant(count, value_of(&slot));
        DONE
    }

    pub fn extend_from(&mut self, other: &Entry) -> Reply {
        match (self, other) {
            (Entry::MPrim(array), Entry::MPrim(other)) => match other.validity() {
                Some(_) => array.try_extend_from_self(other)?,
                None => array.extend_from_slice(other.values()),
            },
            (Entry::MBool(array), Entry::MBool(other)) => {
                if array.validity().is_some() && other.validity().is_none() {
                    array.extend_trusted_len_values(other.values_iter());
                } else {
                    array.try_extend_from_self(other)?;
                }
            }
            (Entry::MBin(array), Entry::MBin(other)) => join_with_nulls!(array, other),
            (Entry::MUtf8(array), Entry::MUtf8(other)) => join_with_nulls!(array, other),
            (Entry::VBin(array), Entry::VBin(other)) => join!(array, other),
            (Entry::VUtf8(array), Entry::VUtf8(other)) => join!(array, other),
            _ => return Err(Stop::NotMet),
        }
        DONE
    }

    pub fn reserve(&mut self, count: usize, bytes: usize) -> Reply {
        let sort = self.sort();
        builder!(self, _array => ask_for_slots(sort, count)?, return Err(Stop::NotMet));
        if matches!(sort, Sort::Bytes | Sort::Text) {
            ask_for(bytes, 1)?;
        }
        match self {
            Entry::MPrim(array) => array.reserve(count),
            Entry::MBool(array) => array.reserve(count),
            Entry::MBin(array) => array.reserve(count, bytes),
            Entry::MUtf8(array) => array.reserve(count, bytes),
            Entry::VBin(array) => array.reserve(count, bytes),
            Entry::VUtf8(array) => array.reserve(count, bytes),
            _ => return Err(Stop::NotMet),
        }
        DONE
    }

    pub fn shrink(&mut self) -> Reply {
        builder!(self, array => array.shrink_to_fit(), return Err(Stop::NotMet));
        DONE
    }

    /// The array of a builder, and the reply.
    pub fn freeze(self) -> (Entry, &'static str) {
        let array = match self {
            Entry::MPrim(array) => Entry::Prim(array.into()),
            Entry::MBool(array) => Entry::Bool(array.into()),
            Entry::MBin(array) => Entry::Bin(array.into()),
            Entry::MUtf8(array) => Entry::Utf8(array.into()),
            Entry::VBin(array) => Entry::Bin(array.into()),
            Entry::VUtf8(array) => Entry::Utf8(array.into()),
            other => return (other, "not met"),
        };
        (array, "ok")
    }

    /// The builder of an array, where it alone has its parts, and the reply.
    pub fn thaw(self) -> (Entry, &'static str) {
        let thawed = match self {
            Entry::Prim(array) => match array.into_mut() {
                Left(array) => Left(Entry::Prim(array)),
                Right(array) => Right(Entry::MPrim(trimmed_values(array))),
            },
            Entry::Bool(array) => thaw_bits(array).map_left(Entry::Bool).map_right(Entry::MBool),
            Entry::Bin(array) => match array.into_mut() {
                Left(array) => Left(Entry::Bin(array)),
                Right(array) => Right(Entry::MBin(trimmed_bytes(array))),
            },
            Entry::Utf8(array) => match array.into_mut() {
                Left(array) => Left(Entry::Utf8(array)),
                Right(array) => Right(Entry::MUtf8(trimmed_text(array))),
            },
            other => return (other, "not met"),
        };
        match thawed {
            Left(entry) => (entry, "left"),
            Right(entry) => (entry, "right"),
        }
    }

    /// The builder with nulls of a builder of values alone, and the reply.
    pub fn nullable(self) -> (Entry, &'static str) {
        match self {
            Entry::VBin(array) => (Entry::MBin(array.into()), "ok"),
            Entry::VUtf8(array) => (Entry::MUtf8(array.into()), "ok"),
            other => (other, "not met"),
        }
    }

    pub fn to(self, data_type: DataType) -> (Entry, &'static str) {
        let is_right = data_type.to_physical_type() == PhysicalType::Primitive(PrimitiveType::Int64);
        match self {
            Entry::Prim(array) if is_right => (Entry::Prim(array.to(data_type)), "ok"),
            Entry::MPrim(array) if is_right => (Entry::MPrim(array.to(data_type)), "ok"),
            other => (other, "not met"),
        }
    }
}

/// A mask without the bytes behind its length, behind which arrow2 would push.
fn trimmed(bits: MutableBitmap) -> MutableBitmap {
    let length = bits.len();
    let mut bytes = bits.into_vec();
    bytes.truncate(length.div_ceil(8));
    MutableBitmap::from_vec(bytes, length)
}

fn trimmed_values(array: MutablePrimitiveArray<i64>) -> MutablePrimitiveArray<i64> {
    let (data_type, values, mask) = array.into_inner();
    MutablePrimitiveArray::try_new(data_type, values, mask.map(trimmed)).unwrap()
}

/// arrow2's `into_mut`, with trimmed bits.
fn thaw_bits(array: BooleanArray) -> Either<BooleanArray, MutableBooleanArray> {
    let (data_type, values, mask) = array.into_inner();
    let mask = match mask.map(Bitmap::into_mut) {
        Some(Left(mask)) => return Left(BooleanArray::new(data_type, values, Some(mask))),
        Some(Right(mask)) => Some(trimmed(mask)),
        None => None,
    };
    match values.into_mut() {
        Left(values) => Left(BooleanArray::new(data_type, values, mask.map(Bitmap::from))),
        Right(values) => Right(MutableBooleanArray::try_new(data_type, trimmed(values), mask).unwrap()),
    }
}

/// A builder without the bytes behind its last offset, which arrow2's `into_mut` keeps.
fn trimmed_bytes(array: MutableBinaryArray<i32>) -> MutableBinaryArray<i32> {
    let last = *array.offsets().last() as usize;
    if last == array.values().len() {
        return array;
    }
    let (offsets, bytes) = (array.offsets().clone(), array.values()[..last].to_vec());
    let (data_type, mask) = (array.data_type().clone(), array.validity().cloned());
    MutableBinaryArray::try_new(data_type, offsets, bytes, mask).unwrap()
}

fn trimmed_text(array: MutableUtf8Array<i32>) -> MutableUtf8Array<i32> {
    let last = *array.offsets().last() as usize;
    if last == array.values().len() {
        return array;
    }
    let (data_type, offsets, mut bytes, mask) = array.into_data();
    bytes.truncate(last);
    // Safety: the slots are the builder's.
    unsafe { MutableUtf8Array::new_unchecked(data_type, offsets, bytes, mask) }
}
