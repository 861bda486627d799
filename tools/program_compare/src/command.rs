//! Lines as commands.
use arrow2::bitmap::MutableBitmap;
use arrow2::datatypes::DataType;

use crate::words::{self, item, number, slot, Item, Kind, Slot, Sort, Turn, Words};

pub enum Named<'a> {
    Fill(Item<'a>),
    Reverse,
}

/// Raw stored values.
pub enum Raw<'a> {
    Values(Vec<i64>),
    Bits(MutableBitmap),
    Pieces(&'a [u8], Vec<i32>),
}

pub struct Parts<'a> {
    pub kind: Kind,
    pub data_type: DataType,
    pub mask: Option<MutableBitmap>,
    pub raw: Raw<'a>,
}

/// A command; its first number is the entry that it is about.
pub enum Command<'a> {
    New(usize, Kind),
    NewNull(usize, Kind, usize),
    Parts(usize, Box<Parts<'a>>),
    FromSlots(usize, Kind, Vec<Slot<'a>>),
    FromItems(usize, Kind, Vec<Item<'a>>),
    Len(usize),
    Value(usize, usize),
    Get(usize, usize),
    IsNull(usize, usize),
    NullCount(usize),
    Slots(usize),
    Turns(usize, Vec<Turn>),
    TypeOf(usize),
    Held(usize),
    Bytes(usize),
    Offsets(usize),
    Slice(usize, usize, usize),
    Clone(usize, usize),
    Drop(usize),
    SetMask(usize, Option<MutableBitmap>),
    ApplyMask(usize, Named<'a>),
    SetValues(usize, Vec<Item<'a>>),
    ApplyValues(usize, Named<'a>),
    Set(usize, usize, Slot<'a>),
    Write(usize, usize, Item<'a>),
    Push(usize, Slot<'a>),
    PushNull(usize),
    Pop(usize),
    Extend(usize, Vec<Slot<'a>>),
    ExtendValues(usize, Vec<Item<'a>>),
    ExtendConstant(usize, usize, Slot<'a>),
    ExtendFromSelf(usize, usize),
    Reserve(usize, usize, usize),
    Shrink(usize),
    Freeze(usize),
    Thaw(usize),
    Nullable(usize),
    To(usize, DataType),
    Equal(usize, usize),
    /// Of keys below a length, which is the number.
    CheckIndexes(usize, Vec<i64>),
}

impl<'a> Command<'a> {
    /// The command that a line is.
    pub fn parse(line: &'a mut [u8]) -> Option<Command<'a>> {
        let mut words = Words::new(line);
        let first = words.next()?;
        let at = words.one(number)?;
        let command = match &*first {
            b"new" => Command::New(at, words.one(words::kind)?),
            b"null" => Command::NewNull(at, words.one(words::kind)?, words.one(number)?),
            b"parts" => Command::Parts(at, Box::new(parts(&mut words)?)),
            b"slots" => Command::FromSlots(at, words.one(words::kind)?, words.all(slot)?),
            b"items" => Command::FromItems(at, words.one(words::kind)?, words.all(item)?),
            b"len" => Command::Len(at),
            b"value" => Command::Value(at, words.one(number)?),
            b"get" => Command::Get(at, words.one(number)?),
            b"isnull" => Command::IsNull(at, words.one(number)?),
            b"nulls" => Command::NullCount(at),
            b"list" => Command::Slots(at),
            b"turns" => Command::Turns(at, words.all(words::turn)?),
            b"type" => Command::TypeOf(at),
            b"held" => Command::Held(at),
            b"bytes" => Command::Bytes(at),
            b"offsets" => Command::Offsets(at),
            b"slice" => Command::Slice(at, words.one(number)?, words.one(number)?),
            b"clone" => Command::Clone(at, words.one(number)?),
            b"drop" => Command::Drop(at),
            b"mask" => Command::SetMask(at, words.one(words::mask)?),
            b"applymask" => Command::ApplyMask(at, named(&mut words)?),
            b"values" => Command::SetValues(at, words.all(item)?),
            b"applyvalues" => Command::ApplyValues(at, named(&mut words)?),
            b"set" => Command::Set(at, words.one(number)?, words.one(slot)?),
            b"write" => Command::Write(at, words.one(number)?, words.one(item)?),
            b"push" => Command::Push(at, words.one(slot)?),
            b"pushnull" => Command::PushNull(at),
            b"pop" => Command::Pop(at),
            b"extend" => Command::Extend(at, words.all(slot)?),
            b"extendvalues" => Command::ExtendValues(at, words.all(item)?),
            b"constant" => Command::ExtendConstant(at, words.one(number)?, words.one(slot)?),
            b"self" => Command::ExtendFromSelf(at, words.one(number)?),
            b"reserve" => Command::Reserve(at, words.one(number)?, words.one(number)?),
            b"shrink" => Command::Shrink(at),
            b"freeze" => Command::Freeze(at),
            b"thaw" => Command::Thaw(at),
            b"nullable" => Command::Nullable(at),
            b"to" => Command::To(at, words.one(words::data_type)?),
            b"equal" => Command::Equal(at, words.one(number)?),
            b"indexes" => Command::CheckIndexes(at, words.all(words::integer)?),
            _ => return None,
        };
        words.next().is_none().then_some(command)
    }
}

fn named<'a>(words: &mut Words<'a>) -> Option<Named<'a>> {
    match &*words.next()? {
        b"fill" => words.one(item).map(Named::Fill),
        b"reverse" => Some(Named::Reverse),
        _ => None,
    }
}

fn parts<'a>(words: &mut Words<'a>) -> Option<Parts<'a>> {
    let kind = words.one(words::kind)?;
    let data_type = words.one(words::data_type)?;
    let mask = words.one(words::mask)?;
    let raw = match kind.sort {
        Sort::Value => Raw::Values(words.all(words::integer)?),
        Sort::Bit => Raw::Bits(words.one(words::bits)?),
        Sort::Bytes | Sort::Text => {
            let bytes = words.one(words::raw_bytes)?;
            Raw::Pieces(bytes, words.all(words::offset)?)
        }
    };
    Some(Parts { kind, data_type, mask, raw })
}
