//! Words, and what they say. A word that has not the form is `None`.
use arrow2::bitmap::MutableBitmap;
use arrow2::datatypes::DataType;

/// What a slot that is not null shows. Bytes and text lie in the line, decoded where their digits were.
#[derive(Clone, Copy)]
pub enum Item<'a> {
    Value(i64),
    Bit(bool),
    Bytes(&'a [u8]),
    Text(&'a str),
}

pub type Slot<'a> = Option<Item<'a>>;

#[derive(Clone, Copy, PartialEq)]
pub enum Sort {
    Value,
    Bit,
    Bytes,
    Text,
}

/// What an item holds, where its sort is known.
impl<'a> Item<'a> {
    pub fn sort(&self) -> Sort {
        match self {
            Item::Value(_) => Sort::Value,
            Item::Bit(_) => Sort::Bit,
            Item::Bytes(_) => Sort::Bytes,
            Item::Text(_) => Sort::Text,
        }
    }

    pub fn value(&self) -> i64 {
        let Item::Value(value) = *self else { unreachable!() };
        value
    }

    pub fn bit(&self) -> bool {
        let Item::Bit(bit) = *self else { unreachable!() };
        bit
    }

    pub fn bytes(&self) -> &'a [u8] {
        let Item::Bytes(bytes) = *self else { unreachable!() };
        bytes
    }

    pub fn text(&self) -> &'a str {
        let Item::Text(text) = *self else { unreachable!() };
        text
    }
}

pub fn value_of(slot: &Slot<'_>) -> Option<i64> {
    slot.as_ref().map(Item::value)
}

pub fn bit_of(slot: &Slot<'_>) -> Option<bool> {
    slot.as_ref().map(Item::bit)
}

pub fn bytes_of<'a>(slot: &Slot<'a>) -> Option<&'a [u8]> {
    slot.as_ref().map(Item::bytes)
}

pub fn text_of<'a>(slot: &Slot<'a>) -> Option<&'a str> {
    slot.as_ref().map(Item::text)
}

#[derive(Clone, Copy, PartialEq)]
pub enum Form {
    /// An array.
    Frozen,
    /// A builder with nulls.
    Nulls,
    /// A builder of values alone.
    Values,
}

#[derive(Clone, Copy)]
pub struct Kind {
    pub form: Form,
    pub sort: Sort,
}

pub static TYPES: [(&str, DataType); 15] = [
    ("Boolean", DataType::Boolean),
    ("Int8", DataType::Int8),
    ("Int16", DataType::Int16),
    ("Int32", DataType::Int32),
    ("Int64", DataType::Int64),
    ("UInt8", DataType::UInt8),
    ("UInt16", DataType::UInt16),
    ("UInt32", DataType::UInt32),
    ("UInt64", DataType::UInt64),
    ("Date32", DataType::Date32),
    ("Date64", DataType::Date64),
    ("Binary", DataType::Binary),
    ("LargeBinary", DataType::LargeBinary),
    ("Utf8", DataType::Utf8),
    ("LargeUtf8", DataType::LargeUtf8),
];

pub enum Turn {
    Front,
    Back,
    Skip(usize),
}

pub fn number(digits: &mut [u8]) -> Option<usize> {
    if digits.is_empty() {
        return None;
    }
    let mut number = 0usize;
    for digit in digits {
        let digit = digit.wrapping_sub(b'0');
        if digit > 9 {
            return None;
        }
        number = number.checked_mul(10)?.checked_add(usize::from(digit))?;
    }
    Some(number)
}

pub fn integer(word: &mut [u8]) -> Option<i64> {
    match word {
        [b'-', digits @ ..] => {
            let number = number(digits)? as u64;
            (number <= 1 << 63).then_some((number as i64).wrapping_neg())
        }
        digits => i64::try_from(number(digits)?).ok(),
    }
}

pub fn offset(word: &mut [u8]) -> Option<i32> {
    i32::try_from(integer(word)?).ok()
}

fn nibble(digit: u8) -> Option<u8> {
    match digit {
        b'0'..=b'9' => Some(digit - b'0'),
        b'a'..=b'f' => Some(digit - b'a' + 10),
        b'A'..=b'F' => Some(digit - b'A' + 10),
        _ => None,
    }
}

/// The bytes of hexadecimal digits, which are written over the digits.
fn hexadecimal(digits: &mut [u8]) -> Option<&[u8]> {
    if digits.len() % 2 != 0 {
        return None;
    }
    let length = digits.len() / 2;
    for at in 0..length {
        digits[at] = nibble(digits[2 * at])? << 4 | nibble(digits[2 * at + 1])?;
    }
    Some(&digits[..length])
}

pub fn item(word: &mut [u8]) -> Option<Item<'_>> {
    let (sort, rest) = word.split_first_mut()?;
    match *sort {
        b'v' => integer(rest).map(Item::Value),
        b'b' => match &*rest {
            b"0" => Some(Item::Bit(false)),
            b"1" => Some(Item::Bit(true)),
            _ => None,
        },
        b'x' => hexadecimal(rest).map(Item::Bytes),
        b't' => std::str::from_utf8(hexadecimal(rest)?).ok().map(Item::Text),
        _ => None,
    }
}

pub fn slot(word: &mut [u8]) -> Option<Slot<'_>> {
    if *word == *b"_" {
        return Some(None);
    }
    item(word).map(Some)
}

pub fn raw_bytes(word: &mut [u8]) -> Option<&[u8]> {
    match item(word)? {
        Item::Bytes(bytes) => Some(bytes),
        _ => None,
    }
}

pub fn bits(word: &mut [u8]) -> Option<MutableBitmap> {
    if *word == *b"." {
        return Some(MutableBitmap::new());
    }
    word.iter()
        .all(|digit| matches!(digit, b'0' | b'1'))
        .then(|| MutableBitmap::from_trusted_len_iter(word.iter().map(|digit| *digit == b'1')))
}

pub fn mask(word: &mut [u8]) -> Option<Option<MutableBitmap>> {
    if *word == *b"-" {
        return Some(None);
    }
    bits(word).map(Some)
}

pub fn turn(word: &mut [u8]) -> Option<Turn> {
    match word {
        [b'f'] => Some(Turn::Front),
        [b'b'] => Some(Turn::Back),
        [b's', digits @ ..] => number(digits).map(Turn::Skip),
        _ => None,
    }
}

pub fn kind(word: &mut [u8]) -> Option<Kind> {
    let (form, sort) = match &*word {
        b"prim" => (Form::Frozen, Sort::Value),
        b"bool" => (Form::Frozen, Sort::Bit),
        b"bin" => (Form::Frozen, Sort::Bytes),
        b"utf8" => (Form::Frozen, Sort::Text),
        b"mprim" => (Form::Nulls, Sort::Value),
        b"mbool" => (Form::Nulls, Sort::Bit),
        b"mbin" => (Form::Nulls, Sort::Bytes),
        b"mutf8" => (Form::Nulls, Sort::Text),
        b"vbin" => (Form::Values, Sort::Bytes),
        b"vutf8" => (Form::Values, Sort::Text),
        _ => return None,
    };
    Some(Kind { form, sort })
}

pub fn data_type(word: &mut [u8]) -> Option<DataType> {
    let (_, data_type) = TYPES.iter().find(|(name, _)| name.as_bytes() == &*word)?;
    Some(data_type.clone())
}

/// The words of a line.
pub struct Words<'a>(&'a mut [u8]);

impl<'a> Iterator for Words<'a> {
    type Item = &'a mut [u8];

    fn next(&mut self) -> Option<&'a mut [u8]> {
        let rest = std::mem::take(&mut self.0);
        let start = rest.iter().position(|byte| *byte != b' ')?;
        let (_, rest) = rest.split_at_mut(start);
        let length = rest.iter().position(|byte| *byte == b' ').unwrap_or(rest.len());
        let (word, rest) = rest.split_at_mut(length);
        self.0 = rest;
        Some(word)
    }
}

impl<'a> Words<'a> {
    pub fn new(line: &'a mut [u8]) -> Words<'a> {
        Words(line)
    }

    pub fn one<T>(&mut self, read: impl FnOnce(&'a mut [u8]) -> Option<T>) -> Option<T> {
        read(self.next()?)
    }

    /// What all words say that are left.
    pub fn all<T>(&mut self, read: impl FnMut(&'a mut [u8]) -> Option<T>) -> Option<Vec<T>> {
        self.map(read).collect()
    }
}
