//! What comes into an empty entry.
use arrow2::array::{
    BinaryArray, BooleanArray, MutableBinaryArray, MutableBinaryValuesArray, MutableBooleanArray,
    MutablePrimitiveArray, MutableUtf8Array, MutableUtf8ValuesArray, PrimitiveArray, Utf8Array,
};
use arrow2::bitmap::{Bitmap, MutableBitmap};
use arrow2::buffer::Buffer;
use arrow2::datatypes::DataType;
use arrow2::offset::{Offsets, OffsetsBuffer};

use crate::command::{Parts, Raw};
use crate::entry::Entry;
use crate::stop::{all_fit, ask_for_slots, meet, refuse_if, Stop, NOT_UTF8};
use crate::words::{bit_of, bytes_of, text_of, value_of, Form, Item, Kind, Slot, Sort};

/// The kind's array or builder of slots. An array is a builder that is frozen, as in arrow2's own calls.
pub fn from_slots(kind: Kind, slots: &[Slot<'_>]) -> Result<Entry, Stop> {
    meet(kind.form != Form::Values)?;
    all_fit(slots.iter().flatten(), kind.sort)?;
    let slots = slots.iter();
    let builder = match kind.sort {
        Sort::Value => Entry::MPrim(MutablePrimitiveArray::from_trusted_len_iter(slots.map(value_of))),
        Sort::Bit => Entry::MBool(MutableBooleanArray::from_trusted_len_iter(slots.map(bit_of))),
        Sort::Bytes => Entry::MBin(MutableBinaryArray::from_trusted_len_iter(slots.map(bytes_of))),
        Sort::Text => Entry::MUtf8(MutableUtf8Array::from_trusted_len_iter(slots.map(text_of))),
    };
    Ok(if kind.form == Form::Frozen { builder.freeze().0 } else { builder })
}

/// The kind's array or builder of items.
pub fn from_items(kind: Kind, items: &[Item<'_>]) -> Result<Entry, Stop> {
    all_fit(items.iter(), kind.sort)?;
    let items = items.iter();
    let builder = match kind.sort {
        Sort::Value => Entry::MPrim(MutablePrimitiveArray::from_vec(items.map(Item::value).collect())),
        Sort::Bit => Entry::MBool(MutableBooleanArray::from_trusted_len_values_iter(items.map(Item::bit))),
        Sort::Bytes => Entry::VBin(MutableBinaryValuesArray::from_trusted_len_iter(items.map(Item::bytes))),
        Sort::Text => Entry::VUtf8(MutableUtf8ValuesArray::from_trusted_len_iter(items.map(Item::text))),
    };
    Ok(match kind.form {
        Form::Frozen => builder.freeze().0,
        Form::Nulls => builder.nullable().0,
        Form::Values => builder,
    })
}

/// The kind's array of so many nulls.
pub fn null(kind: Kind, count: usize) -> Result<Entry, Stop> {
    meet(kind.form == Form::Frozen)?;
    ask_for_slots(kind.sort, count)?;
    Ok(match kind.sort {
        Sort::Value => Entry::Prim(PrimitiveArray::new_null(DataType::Int64, count)),
        Sort::Bit => {
            // Not by `new_null`, whose values and mask are one bitmap, so that it can't be thawed.
            let (values, mask) = (Bitmap::new_zeroed(count), Bitmap::new_zeroed(count));
            Entry::Bool(BooleanArray::new(DataType::Boolean, values, Some(mask)))
        }
        Sort::Bytes => Entry::Bin(BinaryArray::new_null(DataType::Binary, count)),
        Sort::Text => Entry::Utf8(Utf8Array::new_null(DataType::Utf8, count)),
    })
}

pub fn parts(parts: Parts<'_>) -> Result<Entry, Stop> {
    let Parts { kind, data_type, mask, raw } = parts;
    meet(kind.form != Form::Values || mask.is_none())?;
    let is_frozen = kind.form == Form::Frozen;
    Ok(match raw {
        Raw::Values(values) if is_frozen => {
            Entry::Prim(PrimitiveArray::try_new(data_type, values.into(), mask.map(Bitmap::from))?)
        }
        Raw::Values(values) => Entry::MPrim(MutablePrimitiveArray::try_new(data_type, values, mask)?),
        Raw::Bits(bits) if is_frozen => {
            Entry::Bool(BooleanArray::try_new(data_type, bits.into(), mask.map(Bitmap::from))?)
        }
        Raw::Bits(bits) => Entry::MBool(MutableBooleanArray::try_new(data_type, bits, mask)?),
        Raw::Pieces(bytes, offsets) => pieces(kind, data_type, bytes, offsets, mask)?,
    })
}

fn pieces(
    kind: Kind,
    data_type: DataType,
    bytes: &[u8],
    offsets: Vec<i32>,
    mask: Option<MutableBitmap>,
) -> Result<Entry, Stop> {
    let offsets = Offsets::<i32>::try_from(offsets)?;
    let (first, last) = (*offsets.first() as usize, *offsets.last() as usize);
    // arrow2 lets a builder's bytes go on behind the last offset, and a lone offset past all bytes.
    let is_frozen = kind.form == Form::Frozen;
    refuse_if(is_frozen && last > bytes.len(), "offsets must not exceed the values length")?;
    refuse_if(!is_frozen && last != bytes.len(), "the last offset must equal the values length")?;
    // arrow2 judges all bytes as one text. So where some are in no slot the slots are judged here.
    let is_whole = first == 0 && last == bytes.len();
    if kind.sort == Sort::Text && !is_whole {
        let mut slots = offsets.windows(2).map(|ends| &bytes[ends[0] as usize..ends[1] as usize]);
        refuse_if(slots.any(|slot| std::str::from_utf8(slot).is_err()), NOT_UTF8)?;
    }
    let bytes = bytes.to_vec();
    let is_text = kind.sort == Sort::Text;
    Ok(match kind.form {
        Form::Frozen => {
            let (offsets, bytes) = (OffsetsBuffer::from(offsets), Buffer::from(bytes));
            let mask = mask.map(Bitmap::from);
            if !is_text {
                Entry::Bin(BinaryArray::try_new(data_type, offsets, bytes, mask)?)
            } else if is_whole {
                Entry::Utf8(Utf8Array::try_new(data_type, offsets, bytes, mask)?)
            } else {
                // Safety: each slot was found to be text.
                Entry::Utf8(unsafe { Utf8Array::try_new_unchecked(data_type, offsets, bytes, mask) }?)
            }
        }
        Form::Nulls if is_text => {
            let values = texts(data_type, offsets, bytes, is_whole)?;
            let is_wrong = mask.as_ref().is_some_and(|mask| mask.len() != values.len());
            refuse_if(is_wrong, "validity's length must be equal to the number of values")?;
            let mut array: MutableUtf8Array<i32> = values.into();
            array.set_validity(mask);
            Entry::MUtf8(array)
        }
        Form::Nulls => Entry::MBin(MutableBinaryArray::try_new(data_type, offsets, bytes, mask)?),
        Form::Values if is_text => Entry::VUtf8(texts(data_type, offsets, bytes, is_whole)?),
        Form::Values => Entry::VBin(MutableBinaryValuesArray::try_new(data_type, offsets, bytes)?),
    })
}

/// A builder of texts, which are judged here where the bytes are theirs alone, and else were judged before.
fn texts(
    data_type: DataType,
    offsets: Offsets<i32>,
    bytes: Vec<u8>,
    is_whole: bool,
) -> Result<MutableUtf8ValuesArray<i32>, Stop> {
    if is_whole {
        return Ok(MutableUtf8ValuesArray::try_new(data_type, offsets, bytes)?);
    }
    let why = "MutableUtf8ValuesArray can only be initialized with DataType::Utf8 or DataType::LargeUtf8";
    refuse_if(data_type != DataType::Utf8, why)?;
    // Safety: each slot was found to be text.
    Ok(unsafe { MutableUtf8ValuesArray::new_unchecked(data_type, offsets, bytes) })
}
