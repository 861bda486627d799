//! Column kernels as plain loops over slices, for the comparison with the library's: marks by words of 64, with a count
//! of the clear ones, and shared where the library shares them. No slot is an `Option`.
use std::cmp::Ordering;
use std::hint::black_box;
use std::ops::Range;
use std::rc::Rc;

/// One mark a bit, the least significant first; the bits behind the last mark are clear.
pub struct Marks {
    pub words: Vec<u64>,
    pub clear: usize,
}

/// A mask, if there is one; else no slot is null.
pub type Mask = Option<Rc<Marks>>;

impl Marks {
    /// Counts the clear marks of words.
    fn new(words: Vec<u64>, len: usize) -> Self {
        let set: usize = words.iter().map(|word| word.count_ones() as usize).sum();
        Marks { words, clear: len - set }
    }

    #[inline(always)]
    fn is_set(&self, i: usize) -> bool {
        self.words[i / 64] >> (i % 64) & 1 != 0
    }
}

/// Packs marks of one byte each.
pub fn marks_of(bytes: &[u8]) -> Marks {
    Marks::new(test_each(bytes, |byte| byte != 0), bytes.len())
}

/// The mask of marks of one byte each; none of none.
pub fn packed(valid: &[u8]) -> Mask {
    (!valid.is_empty()).then(|| Rc::new(marks_of(valid)))
}

/// A mask, if it has a clear mark.
fn needed(marks: Marks) -> Mask {
    (marks.clear > 0).then(|| Rc::new(marks))
}

/// The number of null slots.
fn nulls(mask: &Mask) -> usize {
    mask.as_ref().map_or(0, |marks| marks.clear)
}

fn is_valid(mask: &Mask, i: usize) -> bool {
    mask.as_ref().map_or(true, |marks| marks.is_set(i))
}

/// The words of a test of each value.
#[inline(always)]
fn test_each<T: Copy>(values: &[T], test: impl Fn(T) -> bool) -> Vec<u64> {
    let word = |values: &[T]| (values.iter().enumerate()).fold(0, |word, (k, x)| word | (test(*x) as u64) << k);
    values.chunks(64).map(word).collect()
}

/// The words of a test of the values at each index of both.
#[inline(always)]
fn test_pairs<T: Copy>(lhs: &[T], rhs: &[T], test: impl Fn(T, T) -> bool) -> Vec<u64> {
    let word = |(lhs, rhs): (&[T], &[T])| {
        (lhs.iter().zip(rhs).enumerate()).fold(0, |word, (k, (x, y))| word | (test(*x, *y) as u64) << k)
    };
    lhs.chunks(64).zip(rhs.chunks(64)).map(word).collect()
}

/// Two lists of as many words, word by word.
fn zip_words(lhs: &[u64], rhs: &[u64], with: impl Fn(u64, u64) -> u64) -> Vec<u64> {
    lhs.iter().zip(rhs).map(|(x, y)| with(*x, *y)).collect()
}

/// Values of both, one by one.
#[inline(always)]
fn zip_values<T: Copy>(lhs: &[T], rhs: &[T], with: impl Fn(T, T) -> T) -> Vec<T> {
    lhs.iter().zip(rhs).map(|(x, y)| with(*x, *y)).collect()
}

/// Folds all values: `step` is passed the sum so far, a value and whether it is valid.
#[inline(always)]
fn fold_slots<T: Copy, S>(values: &[T], mask: &Mask, mut sum: S, step: impl Fn(S, T, bool) -> S) -> S {
    match mask {
        None => values.iter().fold(sum, |sum, x| step(sum, *x, true)),
        Some(marks) => {
            let chunks = values.chunks_exact(64);
            let rest = chunks.remainder();
            for (values, word) in chunks.zip(&marks.words) {
                for (k, x) in values.iter().enumerate() {
                    sum = step(sum, *x, word >> k & 1 != 0);
                }
            }
            for (k, x) in rest.iter().enumerate() {
                sum = step(sum, *x, marks.words[values.len() / 64] >> k & 1 != 0);
            }
            sum
        }
    }
}

// ---- comparisons and logic

#[inline(never)]
pub fn lt(lhs: &[i64], rhs: &[i64], mask: &Mask) -> (Marks, Mask) {
    (Marks::new(test_pairs(lhs, rhs, |x, y| x < y), lhs.len()), mask.clone())
}

#[inline(never)]
pub fn lt_scalar(lhs: &[i64], rhs: i64, mask: &Mask) -> (Marks, Mask) {
    (Marks::new(test_each(lhs, |x| x < rhs), lhs.len()), mask.clone())
}

#[inline(never)]
pub fn eq(lhs: &[i64], rhs: &[i64], mask: &Mask) -> (Marks, Mask) {
    (Marks::new(test_pairs(lhs, rhs, |x, y| x == y), lhs.len()), mask.clone())
}

/// Marks that are clear where a slot is null.
#[inline(always)]
fn set_in_valid(words: Vec<u64>, mask: &Mask, len: usize) -> (Marks, Mask) {
    let words = match mask {
        Some(mask) => zip_words(&words, &mask.words, |x, valid| x & valid),
        None => words,
    };
    (Marks::new(words, len), None)
}

/// Whether two slots are equal, of which the second is not null.
#[inline(never)]
pub fn eq_validity(lhs: &[i64], rhs: &[i64], mask: &Mask) -> (Marks, Mask) {
    set_in_valid(test_pairs(lhs, rhs, |x, y| x == y), mask, lhs.len())
}

#[inline(never)]
pub fn eq_scalar_validity(lhs: &[i64], rhs: i64, mask: &Mask) -> (Marks, Mask) {
    set_in_valid(test_each(lhs, |x| x == rhs), mask, lhs.len())
}

/// Texts: bytes and one more offset than there are texts.
#[derive(Clone, Copy)]
pub struct Texts<'a> {
    pub bytes: &'a [u8],
    pub offsets: &'a [i32],
}

impl<'a> Texts<'a> {
    fn len(&self) -> usize {
        self.offsets.len() - 1
    }

    #[inline(always)]
    fn get(&self, i: usize) -> &'a [u8] {
        &self.bytes[self.offsets[i] as usize..self.offsets[i + 1] as usize]
    }

    fn iter(self) -> impl ExactSizeIterator<Item = &'a [u8]> {
        self.offsets.windows(2).map(move |ends| &self.bytes[ends[0] as usize..ends[1] as usize])
    }
}

#[inline(never)]
pub fn eq_texts(lhs: Texts, rhs: Texts) -> Marks {
    let mut words = vec![0; lhs.len().div_ceil(64)];
    for (i, (x, y)) in lhs.iter().zip(rhs.iter()).enumerate() {
        words[i / 64] |= ((x == y) as u64) << (i % 64);
    }
    Marks::new(words, lhs.len())
}

/// The opposite of words; the bits behind the last mark are clear.
fn opposite(words: &[u64], len: usize) -> Vec<u64> {
    let mut words: Vec<u64> = words.iter().map(|word| !word).collect();
    if len % 64 != 0 {
        words[len / 64] &= (1 << (len % 64)) - 1;
    }
    words
}

#[inline(never)]
pub fn not(values: &Marks, mask: &Mask, len: usize) -> (Marks, Mask) {
    (Marks::new(opposite(&values.words, len), len), mask.clone())
}

/// Marks of the slots that are null.
#[inline(never)]
pub fn null_marks(mask: &Mask, len: usize) -> Marks {
    match mask {
        Some(marks) => Marks::new(opposite(&marks.words, len), len),
        None => Marks { words: vec![0; len.div_ceil(64)], clear: len },
    }
}

#[inline(never)]
pub fn and(lhs: &Marks, rhs: &Marks, mask: &Mask, len: usize) -> (Marks, Mask) {
    (Marks::new(zip_words(&lhs.words, &rhs.words, |x, y| x & y), len), mask.clone())
}

/// Whether both slots are true, of three-valued logic: values, and which are known.
#[inline(never)]
pub fn kleene_and(lhs: &Marks, rhs: &Marks, mask: &Mask, len: usize) -> (Marks, Mask) {
    let Some(mask) = mask else {
        return and(lhs, rhs, &None, len);
    };
    let trues = zip_words(&lhs.words, &mask.words, |x, valid| x & valid);
    let values = zip_words(&trues, &rhs.words, |x, y| x & y);
    let mut known = zip_words(&mask.words, &rhs.words, |valid, y| valid | !y);
    if len % 64 != 0 {
        known[len / 64] &= (1 << (len % 64)) - 1;
    }
    (Marks::new(values, len), Some(Rc::new(Marks::new(known, len))))
}

/// Which results of `and` of three-valued logic with a null are known: those of slots that are false.
#[inline(never)]
pub fn kleene_and_null(lhs: &Marks, mask: &Mask, len: usize) -> Mask {
    let mut known: Vec<u64> = match mask {
        Some(mask) => zip_words(&mask.words, &lhs.words, |valid, x| valid & !x),
        None => lhs.words.iter().map(|x| !x).collect(),
    };
    if len % 64 != 0 {
        known[len / 64] &= (1 << (len % 64)) - 1;
    }
    Some(Rc::new(Marks::new(known, len)))
}

// ---- arithmetic and casts

#[inline(never)]
pub fn add(lhs: &[i64], rhs: &[i64], mask: &Mask) -> (Vec<i64>, Mask) {
    (zip_values(lhs, rhs, i64::wrapping_add), mask.clone())
}

#[inline(never)]
pub fn mul(lhs: &[i64], rhs: &[i64], mask: &Mask) -> (Vec<i64>, Mask) {
    (zip_values(lhs, rhs, i64::wrapping_mul), mask.clone())
}

/// The divisors have no zero.
#[inline(never)]
pub fn div(lhs: &[i64], rhs: &[i64], mask: &Mask) -> (Vec<i64>, Mask) {
    (zip_values(lhs, rhs, i64::wrapping_div), mask.clone())
}

#[inline(never)]
pub fn sub_seven(values: &[i64], mask: &Mask) -> (Vec<i64>, Mask) {
    (values.iter().map(|x| x.wrapping_sub(7)).collect(), mask.clone())
}

#[inline(never)]
pub fn negate(values: &[i64], mask: &Mask) -> (Vec<i64>, Mask) {
    (values.iter().map(|x| x.wrapping_neg()).collect(), mask.clone())
}

#[inline(never)]
pub fn add_i32(lhs: &[i32], rhs: &[i32], mask: &Mask) -> (Vec<i32>, Mask) {
    (zip_values(lhs, rhs, i32::wrapping_add), mask.clone())
}

#[inline(never)]
pub fn saturating_add_i32(lhs: &[i32], rhs: &[i32], mask: &Mask) -> (Vec<i32>, Mask) {
    (zip_values(lhs, rhs, i32::saturating_add), mask.clone())
}

/// Marks that are set in both.
fn both(mask: &Mask, words: Vec<u64>, len: usize) -> Mask {
    let words = match mask {
        None => words,
        Some(mask) => zip_words(&words, &mask.words, |x, y| x & y),
    };
    Some(Rc::new(Marks::new(words, len)))
}

/// A null where a sum overflows, or a slot is null.
#[inline(never)]
pub fn checked_add(lhs: &[i64], rhs: &[i64], mask: &Mask) -> (Vec<i64>, Mask) {
    let fits = test_pairs(lhs, rhs, |x, y| x.checked_add(y).is_some());
    (zip_values(lhs, rhs, i64::wrapping_add), both(mask, fits, lhs.len()))
}

#[inline(never)]
pub fn wrap_i32(values: &[i64], mask: &Mask) -> (Vec<i32>, Mask) {
    (values.iter().map(|x| *x as i32).collect(), mask.clone())
}

/// The values as 32-bit numbers, a null where one doesn't fit.
#[inline(never)]
pub fn fit_i32(values: &[i64], mask: &Mask) -> (Vec<i32>, Mask) {
    let fits = test_each(values, |x| x as i32 as i64 == x);
    (values.iter().map(|x| *x as i32).collect(), both(mask, fits, values.len()))
}

/// Appends a number in decimal, two digits at a time.
fn push_decimal(out: &mut Vec<u8>, number: i64) {
    let mut digits = [0; 20];
    let (mut at, mut rest) = (digits.len(), number.unsigned_abs());
    while rest >= 100 {
        let pair = (rest % 100) as u8;
        rest /= 100;
        at -= 2;
        digits[at] = b'0' + pair / 10;
        digits[at + 1] = b'0' + pair % 10;
    }
    if rest >= 10 {
        at -= 2;
        digits[at] = b'0' + rest as u8 / 10;
        digits[at + 1] = b'0' + rest as u8 % 10;
    } else {
        at -= 1;
        digits[at] = b'0' + rest as u8;
    }
    if number < 0 {
        at -= 1;
        digits[at] = b'-';
    }
    out.extend_from_slice(&digits[at..]);
}

/// The decimal texts of the valid values: bytes, offsets and mask.
#[inline(never)]
pub fn to_texts(values: &[i64], mask: &Mask) -> (Vec<u8>, Vec<i32>, Mask) {
    let mut bytes = Vec::with_capacity(8 * values.len());
    let mut offsets = Vec::with_capacity(values.len() + 1);
    offsets.push(0);
    for (i, x) in values.iter().enumerate() {
        if is_valid(mask, i) {
            push_decimal(&mut bytes, *x);
        }
        offsets.push(i32::try_from(bytes.len()).unwrap());
    }
    (bytes, offsets, mask.clone())
}

/// The numbers of decimal texts, a null where a slot is null or a text is none.
#[inline(never)]
pub fn of_texts(texts: Texts, mask: &Mask) -> (Vec<i64>, Mask) {
    let mut values = Vec::with_capacity(texts.len());
    let mut words = vec![0; texts.len().div_ceil(64)];
    for (i, text) in texts.iter().enumerate() {
        // Safety: what is read are ASCII digits
        let number = is_valid(mask, i).then(|| unsafe { std::str::from_utf8_unchecked(text) }.parse().ok()).flatten();
        words[i / 64] |= (number.is_some() as u64) << (i % 64);
        values.push(number.unwrap_or(0));
    }
    let mask = needed(Marks::new(words, values.len()));
    (values, mask)
}

/// Whether each value is another one.
#[inline(never)]
pub fn ne_scalar(values: &[i64], other: i64, mask: &Mask) -> (Marks, Mask) {
    (Marks::new(test_each(values, |x| x != other), values.len()), mask.clone())
}

/// One for each mark that is set, else zero.
#[inline(never)]
pub fn of_marks(marks: &Marks, mask: &Mask, len: usize) -> (Vec<i64>, Mask) {
    let mut out = Vec::with_capacity(64 * marks.words.len());
    for word in &marks.words {
        out.extend((0..64).map(|k| (word >> k & 1) as i64));
    }
    out.truncate(len);
    (out, mask.clone())
}

/// The text 1 for each mark that is set, else 0, of the valid slots: bytes, offsets and mask.
#[inline(never)]
pub fn marks_to_texts(marks: &Marks, mask: &Mask, len: usize) -> (Vec<u8>, Vec<i32>, Mask) {
    let mut bytes = Vec::with_capacity(len);
    let mut offsets = Vec::with_capacity(len + 1);
    offsets.push(0);
    for i in 0..len {
        if is_valid(mask, i) {
            bytes.push(b'0' + marks.is_set(i) as u8);
        }
        offsets.push(i32::try_from(bytes.len()).unwrap());
    }
    (bytes, offsets, mask.clone())
}

// ---- aggregates

/// The sum of the valid values.
#[inline(never)]
pub fn sum_wide(values: &[i64], mask: &Mask) -> i128 {
    fold_slots(values, mask, 0i128, |sum, x, valid| sum + if valid { x as i128 } else { 0 })
}

/// The sum of the valid values, 1 if it does not fit.
pub fn sum(values: &[i64], mask: &Mask) -> i64 {
    i64::try_from(sum_wide(values, mask)).unwrap_or(1)
}

#[inline(never)]
pub fn least(values: &[i64], mask: &Mask) -> i64 {
    fold_slots(values, mask, i64::MAX, |least, x, valid| least.min(if valid { x } else { i64::MAX }))
}

#[inline(never)]
pub fn greatest(values: &[i64], mask: &Mask) -> i64 {
    fold_slots(values, mask, i64::MIN, |most, x, valid| most.max(if valid { x } else { i64::MIN }))
}

/// The least valid text.
#[inline(never)]
pub fn least_text<'a>(texts: Texts<'a>, mask: &Mask) -> Option<&'a [u8]> {
    let mut least: Option<&[u8]> = None;
    for (i, text) in texts.iter().enumerate() {
        if is_valid(mask, i) && least.map_or(true, |least| text < least) {
            least = Some(text);
        }
    }
    least
}

// ---- groups and hashes

/// A hash by a product of 128 bits.
#[inline(always)]
fn folded(x: u64) -> u64 {
    let product = (x ^ 0x243f_6a88_85a3_08d3) as u128 * 0x9e37_79b9_7f4a_7c15;
    product as u64 ^ (product >> 64) as u64
}

fn hash_bytes(bytes: &[u8]) -> u64 {
    let word = |bytes: &[u8]| u64::from_le_bytes(bytes.try_into().unwrap());
    if bytes.len() < 8 {
        let last = bytes.iter().fold(0, |word, byte| word << 8 | *byte as u64);
        return folded(bytes.len() as u64 ^ folded(last));
    }
    let state = bytes.chunks_exact(8).fold(bytes.len() as u64, |state, bytes| folded(state ^ word(bytes)));
    folded(state ^ word(&bytes[bytes.len() - 8..]))
}

/// One hash for each slot, that of a null for all nulls.
#[inline(never)]
pub fn hash(values: &[i64], mask: &Mask) -> Vec<u64> {
    let mut out = Vec::with_capacity(values.len());
    match mask {
        None => out.extend(values.iter().map(|x| folded(*x as u64))),
        Some(marks) => {
            for (values, word) in values.chunks(64).zip(&marks.words) {
                let hash = |(k, x): (usize, &i64)| if word >> k & 1 != 0 { folded(*x as u64) } else { 0 };
                out.extend(values.iter().enumerate().map(hash));
            }
        }
    }
    out
}

/// The index of the first slot of each group, and the number of the group of each slot.
pub struct Groups {
    pub first: Vec<usize>,
    pub numbers: Vec<usize>,
}

/// What can be grouped.
trait Key: Copy + Eq + Default {
    fn hash(self) -> u64;
}

impl Key for i64 {
    #[inline(always)]
    fn hash(self) -> u64 {
        folded(self as u64)
    }
}

impl Key for &[u8] {
    #[inline(always)]
    fn hash(self) -> u64 {
        hash_bytes(self)
    }
}

/// The number of each key, at places of a power of two, of which at most half are taken; and the keys.
struct Table<K> {
    places: Vec<u32>,
    keys: Vec<K>,
    null: Option<usize>,
}

impl<K: Key> Table<K> {
    const EMPTY: u32 = u32::MAX;

    fn new() -> Self {
        Table { places: vec![Self::EMPTY; 64], keys: Vec::new(), null: None }
    }

    /// The number of a key, a new one if there is none.
    #[inline(always)]
    fn number(&mut self, key: K) -> usize {
        let last = self.places.len() - 1;
        let mut place = key.hash() as usize & last;
        loop {
            let number = self.places[place];
            if number == Self::EMPTY {
                break;
            }
            if self.keys[number as usize] == key {
                return number as usize;
            }
            place = (place + 1) & last;
        }
        let number = self.keys.len();
        self.places[place] = number as u32;
        self.keys.push(key);
        if 2 * self.keys.len() > self.places.len() {
            self.grow();
        }
        number
    }

    /// The number of nulls, which has no place.
    fn null_number(&mut self) -> usize {
        if self.null.is_none() {
            self.null = Some(self.keys.len());
            self.keys.push(K::default());
        }
        self.null.unwrap()
    }

    #[cold]
    fn grow(&mut self) {
        let last = 2 * self.places.len() - 1;
        self.places = vec![Self::EMPTY; last + 1];
        for (number, key) in self.keys.iter().enumerate() {
            if self.null == Some(number) {
                continue;
            }
            let mut place = key.hash() as usize & last;
            while self.places[place] != Self::EMPTY {
                place = (place + 1) & last;
            }
            self.places[place] = number as u32;
        }
    }
}

/// Groups equal keys, the nulls as one group.
#[inline(always)]
fn group_keys<K: Key>(keys: impl ExactSizeIterator<Item = K>, mask: &Mask) -> Groups {
    let mut table = Table::new();
    let mut first = Vec::new();
    let mut numbers = Vec::with_capacity(keys.len());
    for (i, key) in keys.enumerate() {
        let number = if is_valid(mask, i) { table.number(key) } else { table.null_number() };
        if number == first.len() {
            first.push(i);
        }
        numbers.push(number);
    }
    Groups { first, numbers }
}

#[inline(never)]
pub fn group(values: &[i64], mask: &Mask) -> Groups {
    match mask {
        None => group_keys(values.iter().copied(), &None),
        Some(_) => group_keys(values.iter().copied(), mask),
    }
}

#[inline(never)]
pub fn group_texts(texts: Texts, mask: &Mask) -> Groups {
    group_keys(texts.iter(), mask)
}

/// What is folded of each group, beside whether a slot of it is valid: `step` is passed the sum so far, a value and whether
/// it is valid.
#[inline(always)]
fn fold_groups<S: Copy>(
    values: &[i64],
    mask: &Mask,
    groups: &Groups,
    start: S,
    step: impl Fn(S, i64, bool) -> S,
) -> Vec<(S, bool)> {
    let mut sums = vec![(start, false); groups.first.len()];
    match mask {
        None => {
            for (x, number) in values.iter().zip(&groups.numbers) {
                let sum = &mut sums[*number];
                *sum = (step(sum.0, *x, true), true);
            }
        }
        Some(marks) => {
            for ((values, numbers), word) in values.chunks(64).zip(groups.numbers.chunks(64)).zip(&marks.words) {
                for (k, (x, number)) in values.iter().zip(numbers).enumerate() {
                    let valid = word >> k & 1 != 0;
                    let sum = &mut sums[*number];
                    *sum = (step(sum.0, *x, valid), sum.1 | valid);
                }
            }
        }
    }
    sums
}

#[inline(always)]
fn sums_of_groups(values: &[i64], mask: &Mask, groups: &Groups) -> Vec<(i128, bool)> {
    fold_groups(values, mask, groups, 0, |sum, x, valid| sum + if valid { x as i128 } else { 0 })
}

/// The mask of what was folded: a null for a group of nulls.
fn mask_of_groups<S: Copy>(sums: &[(S, bool)]) -> Mask {
    needed(Marks::new(test_each(sums, |sum| sum.1), sums.len()))
}

/// The sum of each group, a null for a group of nulls; `None` if one does not fit.
#[inline(never)]
pub fn group_sum(values: &[i64], mask: &Mask, groups: &Groups) -> Option<(Vec<i64>, Mask)> {
    let sums = sums_of_groups(values, mask, groups);
    let values = sums.iter().map(|sum| i64::try_from(sum.0)).collect::<Result<Vec<_>, _>>().ok()?;
    Some((values, mask_of_groups(&sums)))
}

/// The sum of each group in 128 bits.
#[inline(never)]
pub fn group_sum_wide(values: &[i64], mask: &Mask, groups: &Groups) -> (Vec<i128>, Mask) {
    let sums = sums_of_groups(values, mask, groups);
    (sums.iter().map(|sum| sum.0).collect(), mask_of_groups(&sums))
}

/// The least value of each group.
#[inline(never)]
pub fn group_least(values: &[i64], mask: &Mask, groups: &Groups) -> (Vec<i64>, Mask) {
    let least = |least: i64, x, valid| least.min(if valid { x } else { i64::MAX });
    let sums = fold_groups(values, mask, groups, i64::MAX, least);
    (sums.iter().map(|sum| sum.0).collect(), mask_of_groups(&sums))
}

// ---- selections

/// The values at keys, and a null where a key is null; `None` if a valid key is out of bounds.
#[inline(never)]
pub fn take(values: &[i64], keys: &[i64], mask: &Mask) -> Option<(Vec<i64>, Mask)> {
    let inside = fold_slots(keys, mask, true, |all, key, valid| all & (!valid | ((key as u64) < values.len() as u64)));
    if !inside {
        return None;
    }
    let taken = keys.iter().map(|key| values.get(*key as usize).copied().unwrap_or(0)).collect();
    Some((taken, mask.clone()))
}

/// The value of the left where the predicate is true, else that of the right, which has no null.
#[inline(never)]
pub fn if_then_else(predicate: &Marks, lhs: &[i64], rhs: &[i64], mask: &Mask) -> (Vec<i64>, Mask) {
    let mut out = Vec::with_capacity(lhs.len());
    for ((lhs, rhs), word) in lhs.chunks(64).zip(rhs.chunks(64)).zip(&predicate.words) {
        out.extend((lhs.iter().zip(rhs).enumerate()).map(|(k, (x, y))| if word >> k & 1 != 0 { *x } else { *y }));
    }
    let mask = mask.as_ref().and_then(|marks| {
        let mut words = zip_words(&predicate.words, &marks.words, |word, valid| valid | !word);
        if out.len() % 64 != 0 {
            words[out.len() / 64] &= (1 << (out.len() % 64)) - 1;
        }
        needed(Marks::new(words, out.len()))
    });
    (out, mask)
}

/// The mask of the left values, which are shared, with a null where those of the right are equal.
#[inline(never)]
pub fn nullif(lhs: &Rc<Vec<i64>>, rhs: &[i64], mask: &Mask) -> (Rc<Vec<i64>>, Mask) {
    let mut words = test_pairs(lhs, rhs, |x, y| x != y);
    if let Some(marks) = mask {
        for (word, valid) in words.iter_mut().zip(&marks.words) {
            *word &= valid;
        }
    }
    (lhs.clone(), needed(Marks::new(words, lhs.len())))
}

/// The number of bytes of each text.
#[inline(never)]
pub fn lengths(texts: Texts, mask: &Mask) -> (Vec<i32>, Mask) {
    (texts.offsets.windows(2).map(|ends| ends[1] - ends[0]).collect(), mask.clone())
}

// ---- sorts

/// The indexes of the slots in their order, nulls first.
#[inline(always)]
fn sort_slots<T: Ord + Copy>(slots: impl Iterator<Item = T>, len: usize, mask: &Mask) -> Vec<u64> {
    let mut out = Vec::with_capacity(len);
    let mut pairs: Vec<(T, u64)> = Vec::with_capacity(len);
    for (slot, i) in slots.zip(0..) {
        if is_valid(mask, i as usize) {
            pairs.push((slot, i));
        } else {
            out.push(i);
        }
    }
    pairs.sort_by_key(|pair| pair.0);
    out.extend(pairs.iter().map(|pair| pair.1));
    out
}

#[inline(never)]
pub fn sort_indexes(values: &[i64], mask: &Mask) -> Vec<u64> {
    sort_slots(values.iter().copied(), values.len(), mask)
}

#[inline(never)]
pub fn sort_text_indexes(texts: Texts, mask: &Mask) -> Vec<u64> {
    sort_slots(texts.iter(), texts.len(), mask)
}

/// How many indexes a sort with a limit returns.
const LIMIT: usize = 100;

/// The first items in an order, sorted.
#[inline(always)]
fn sort_first<T>(mut items: Vec<T>, order: impl Fn(&T, &T) -> Ordering + Copy) -> Vec<T> {
    if LIMIT < items.len() {
        items.select_nth_unstable_by(LIMIT, order);
        items.truncate(LIMIT);
    }
    items.sort_unstable_by(order);
    items
}

/// The indexes of the first values in their order.
#[inline(never)]
pub fn sort_first_indexes(values: &[i64]) -> Vec<u64> {
    let pairs: Vec<(i64, u64)> = values.iter().copied().zip(0..).collect();
    sort_first(pairs, Ord::cmp).iter().map(|pair| pair.1).collect()
}

/// The order of two rows of two columns, nulls first; the second column has none.
#[inline(always)]
fn row_order(first: &[i64], second: &[i64], mask: &Mask, i: u64, j: u64) -> Ordering {
    let (i, j) = (i as usize, j as usize);
    let slot = |i| is_valid(mask, i).then(|| first[i]);
    slot(i).cmp(&slot(j)).then_with(|| second[i].cmp(&second[j]))
}

fn all_indexes(len: usize) -> Vec<u64> {
    (0..len as u64).collect()
}

#[inline(never)]
pub fn sort_rows(first: &[i64], second: &[i64], mask: &Mask) -> Vec<u64> {
    let mut out = all_indexes(first.len());
    match mask {
        None => out.sort_by(|i, j| row_order(first, second, &None, *i, *j)),
        Some(_) => out.sort_by(|i, j| row_order(first, second, mask, *i, *j)),
    }
    out
}

/// The indexes of the first rows in their order, equal rows in that of their indexes.
#[inline(never)]
pub fn sort_first_rows(first: &[i64], second: &[i64], mask: &Mask) -> Vec<u64> {
    let all = all_indexes(first.len());
    match mask {
        None => sort_first(all, |i, j| row_order(first, second, &None, *i, *j).then(i.cmp(j))),
        Some(_) => sort_first(all, |i, j| row_order(first, second, mask, *i, *j).then(i.cmp(j))),
    }
}

/// The ranges of equal rows: each row that differs from the one before it begins one.
#[inline(never)]
pub fn ranges(first: &[i64], second: &[i64]) -> Vec<Range<usize>> {
    let (mut out, mut start) = (Vec::new(), 0);
    for (i, (x, y)) in first.windows(2).zip(second.windows(2)).enumerate() {
        if x[0] != x[1] || y[0] != y[1] {
            out.push(start..i + 1);
            start = i + 1;
        }
    }
    if !first.is_empty() {
        out.push(start..first.len());
    }
    out
}

// ---- what is read of a round's answer: as rattle_flat.h says

/// The place that is looked at after a round.
fn place(round: u64, rows: usize) -> usize {
    (round.wrapping_mul(7919) % rows.max(1) as u64) as usize
}

/// The number of rows, that of null ones, and what `slot` gives for the row that is looked at, if it is valid.
fn probe(rows: usize, mask: &Mask, round: u64, slot: impl Fn(usize) -> u64) -> u64 {
    let at = place(round, rows);
    let shown = if rows > 0 && is_valid(mask, at) { slot(at) } else { 0 };
    (rows as u64).wrapping_add(nulls(mask) as u64).wrapping_add(shown)
}

/// An operation of the comparison, which is given the round.
pub type Operation<'a> = Box<dyn FnMut(u64) -> u64 + 'a>;

/// A kernel of two columns of numbers, of which the second has no null, that makes booleans.
pub fn compare<'a>(
    kernel: fn(&[i64], &[i64], &Mask) -> (Marks, Mask),
    lhs: &'a [i64],
    rhs: &'a [i64],
    valid: &[u8],
) -> Operation<'a> {
    let mask = packed(valid);
    Box::new(move |round| {
        let (marks, mask) = kernel(black_box(lhs), rhs, &mask);
        probe(lhs.len(), &mask, round, |at| marks.is_set(at) as u64)
    })
}

pub fn compare_zero<'a>(
    kernel: fn(&[i64], i64, &Mask) -> (Marks, Mask),
    values: &'a [i64],
    valid: &[u8],
) -> Operation<'a> {
    let mask = packed(valid);
    Box::new(move |round| {
        let (marks, mask) = kernel(black_box(values), 0, &mask);
        probe(values.len(), &mask, round, |at| marks.is_set(at) as u64)
    })
}

pub fn compare_texts<'a>(bytes: &'a [u8], others: &'a [u8], offsets: &'a [i32]) -> Operation<'a> {
    let (lhs, rhs) = (Texts { bytes, offsets }, Texts { bytes: others, offsets });
    Box::new(move |round| {
        let marks = eq_texts(black_box(lhs), rhs);
        probe(lhs.len(), &None, round, |at| marks.is_set(at) as u64)
    })
}

/// A kernel of two columns of booleans, of which the second has no null.
pub fn combine_marks<'a>(
    kernel: fn(&Marks, &Marks, &Mask, usize) -> (Marks, Mask),
    bits: &[u8],
    others: &[u8],
    valid: &[u8],
) -> Operation<'a> {
    let (lhs, rhs, mask, rows) = (marks_of(bits), marks_of(others), packed(valid), bits.len());
    Box::new(move |round| {
        let (marks, mask) = kernel(black_box(&lhs), &rhs, &mask, rows);
        probe(rows, &mask, round, |at| marks.is_set(at) as u64)
    })
}

/// A kernel of a column of booleans that makes booleans.
pub fn map_marks<'a>(kernel: fn(&Marks, &Mask, usize) -> (Marks, Mask), bits: &[u8], valid: &[u8]) -> Operation<'a> {
    let (values, mask, rows) = (marks_of(bits), packed(valid), bits.len());
    Box::new(move |round| {
        let (marks, mask) = kernel(black_box(&values), &mask, rows);
        probe(rows, &mask, round, |at| marks.is_set(at) as u64)
    })
}

pub fn logic_is_null<'a>(rows: usize, valid: &[u8]) -> Operation<'a> {
    let mask = packed(valid);
    Box::new(move |round| {
        let marks = null_marks(black_box(&mask), rows);
        probe(rows, &None, round, |at| marks.is_set(at) as u64)
    })
}

pub fn combine_marks_with_null<'a>(bits: &[u8], valid: &[u8]) -> Operation<'a> {
    let (values, mask, rows) = (marks_of(bits), packed(valid), bits.len());
    Box::new(move |round| {
        let mask = kleene_and_null(black_box(&values), &mask, rows);
        probe(rows, &mask, round, |at| values.is_set(at) as u64)
    })
}

/// A kernel of two columns of numbers, of which the second has no null, that makes numbers.
pub fn combine<'a>(
    kernel: fn(&[i64], &[i64], &Mask) -> (Vec<i64>, Mask),
    lhs: &'a [i64],
    rhs: &'a [i64],
    valid: &[u8],
) -> Operation<'a> {
    let mask = packed(valid);
    Box::new(move |round| {
        let (values, mask) = kernel(black_box(lhs), rhs, &mask);
        probe(values.len(), &mask, round, |at| values[at] as u64)
    })
}

/// A kernel of a column of numbers that makes numbers.
pub fn map_values<'a>(kernel: fn(&[i64], &Mask) -> (Vec<i64>, Mask), values: &'a [i64], valid: &[u8]) -> Operation<'a> {
    let mask = packed(valid);
    Box::new(move |round| {
        let (values, mask) = kernel(black_box(values), &mask);
        probe(values.len(), &mask, round, |at| values[at] as u64)
    })
}

/// A kernel of the low 32 bits of two columns of numbers.
pub fn combine_i32<'a>(
    kernel: fn(&[i32], &[i32], &Mask) -> (Vec<i32>, Mask),
    lhs: &'a [i64],
    rhs: &'a [i64],
) -> Operation<'a> {
    let (lhs, rhs) = (wrap_i32(lhs, &None).0, wrap_i32(rhs, &None).0);
    Box::new(move |round| {
        let (values, mask) = kernel(black_box(&lhs), &rhs, &None);
        probe(values.len(), &mask, round, |at| values[at] as u64)
    })
}

pub fn cast_i32<'a>(kernel: fn(&[i64], &Mask) -> (Vec<i32>, Mask), values: &'a [i64], valid: &[u8]) -> Operation<'a> {
    let mask = packed(valid);
    Box::new(move |round| {
        let (values, mask) = kernel(black_box(values), &mask);
        probe(values.len(), &mask, round, |at| values[at] as u64)
    })
}

/// Of texts: their bytes, offsets and mask.
fn probe_texts((bytes, offsets, mask): &(Vec<u8>, Vec<i32>, Mask), round: u64) -> u64 {
    let texts = Texts { bytes, offsets };
    probe(texts.len(), mask, round, |at| texts.get(at).first().map_or(0, |byte| *byte as u64))
}

pub fn cast_to_utf8<'a>(values: &'a [i64], valid: &[u8]) -> Operation<'a> {
    let mask = packed(valid);
    Box::new(move |round| probe_texts(&to_texts(black_box(values), &mask), round))
}

pub fn cast_bool_utf8<'a>(bits: &[u8], valid: &[u8]) -> Operation<'a> {
    let (values, mask, rows) = (marks_of(bits), packed(valid), bits.len());
    Box::new(move |round| probe_texts(&marks_to_texts(black_box(&values), &mask, rows), round))
}

pub fn cast_of_bool<'a>(bits: &[u8], valid: &[u8]) -> Operation<'a> {
    let (values, mask, rows) = (marks_of(bits), packed(valid), bits.len());
    Box::new(move |round| {
        let (values, mask) = of_marks(black_box(&values), &mask, rows);
        probe(rows, &mask, round, |at| values[at] as u64)
    })
}

pub fn cast_of_utf8<'a>(bytes: &'a [u8], offsets: &'a [i32], valid: &[u8]) -> Operation<'a> {
    let (texts, mask) = (Texts { bytes, offsets }, packed(valid));
    Box::new(move |round| {
        let (values, mask) = of_texts(black_box(texts), &mask);
        probe(values.len(), &mask, round, |at| values[at] as u64)
    })
}

/// A number of all values.
pub fn aggregate<'a>(kernel: fn(&[i64], &Mask) -> i64, values: &'a [i64], valid: &[u8]) -> Operation<'a> {
    let mask = packed(valid);
    Box::new(move |_| kernel(black_box(values), &mask) as u64)
}

pub fn agg_sum_wide<'a>(values: &'a [i64], valid: &[u8]) -> Operation<'a> {
    let mask = packed(valid);
    Box::new(move |_| sum_wide(black_box(values), &mask) as u64)
}

pub fn agg_min_utf8<'a>(bytes: &'a [u8], offsets: &'a [i32], valid: &[u8]) -> Operation<'a> {
    let (texts, mask) = (Texts { bytes, offsets }, packed(valid));
    Box::new(move |_| least_text(black_box(texts), &mask).map_or(0, |text| text.len() as u64))
}

fn probe_groups(groups: &Groups, round: u64) -> u64 {
    let rows = groups.numbers.len();
    (rows + groups.first.len() + groups.numbers.get(place(round, rows)).copied().unwrap_or(0)) as u64
}

pub fn group_prim<'a>(values: &'a [i64], valid: &[u8]) -> Operation<'a> {
    let mask = packed(valid);
    Box::new(move |round| probe_groups(&group(black_box(values), &mask), round))
}

pub fn group_utf8<'a>(bytes: &'a [u8], offsets: &'a [i32], valid: &[u8]) -> Operation<'a> {
    let (texts, mask) = (Texts { bytes, offsets }, packed(valid));
    Box::new(move |round| probe_groups(&group_texts(black_box(texts), &mask), round))
}

/// Sums of values by the groups of keys, which are grouped once.
pub fn sum_groups<'a>(values: &'a [i64], keys: &[i64], valid: &[u8]) -> Operation<'a> {
    let (mask, groups) = (packed(valid), group(keys, &None));
    Box::new(move |round| match group_sum(black_box(values), &mask, &groups) {
        Some((sums, mask)) => probe(sums.len(), &mask, round, |at| sums[at] as u64),
        None => u64::MAX,
    })
}

pub fn sum_groups_wide<'a>(values: &'a [i64], keys: &[i64], valid: &[u8]) -> Operation<'a> {
    let (mask, groups) = (packed(valid), group(keys, &None));
    Box::new(move |round| {
        let (sums, mask) = group_sum_wide(black_box(values), &mask, &groups);
        probe(sums.len(), &mask, round, |at| sums[at] as u64)
    })
}

pub fn least_of_groups<'a>(values: &'a [i64], keys: &[i64], valid: &[u8]) -> Operation<'a> {
    let (mask, groups) = (packed(valid), group(keys, &None));
    Box::new(move |round| {
        let (least, mask) = group_least(black_box(values), &mask, &groups);
        probe(least.len(), &mask, round, |at| least[at] as u64)
    })
}

pub fn hash_prim<'a>(values: &'a [i64], valid: &[u8]) -> Operation<'a> {
    let mask = packed(valid);
    Box::new(move |round| {
        let hashes = hash(black_box(values), &mask);
        probe(hashes.len(), &None, round, |at| hashes[at])
    })
}

pub fn select_take<'a>(keys: &'a [i64], values: &'a [i64], valid: &[u8]) -> Operation<'a> {
    let mask = packed(valid);
    Box::new(move |round| match take(values, black_box(keys), &mask) {
        Some((values, mask)) => probe(values.len(), &mask, round, |at| values[at] as u64),
        None => u64::MAX,
    })
}

pub fn select_if_then_else<'a>(bits: &[u8], values: &'a [i64], others: &'a [i64], valid: &[u8]) -> Operation<'a> {
    let (predicate, mask) = (marks_of(bits), packed(valid));
    Box::new(move |round| {
        let (values, mask) = if_then_else(&predicate, black_box(values), others, &mask);
        probe(values.len(), &mask, round, |at| values[at] as u64)
    })
}

pub fn select_nullif<'a>(values: &[i64], others: &'a [i64], valid: &[u8]) -> Operation<'a> {
    let (values, mask) = (Rc::new(values.to_vec()), packed(valid));
    Box::new(move |round| {
        let (values, mask) = nullif(black_box(&values), others, &mask);
        probe(values.len(), &mask, round, |at| values[at] as u64)
    })
}

pub fn select_length<'a>(bytes: &'a [u8], offsets: &'a [i32], valid: &[u8]) -> Operation<'a> {
    let (texts, mask) = (Texts { bytes, offsets }, packed(valid));
    Box::new(move |round| {
        let (lengths, mask) = lengths(black_box(texts), &mask);
        probe(lengths.len(), &mask, round, |at| lengths[at] as u64)
    })
}

fn probe_indexes(indexes: &[u64], round: u64) -> u64 {
    probe(indexes.len(), &None, round, |at| indexes[at])
}

pub fn sort_prim<'a>(values: &'a [i64], valid: &[u8]) -> Operation<'a> {
    let mask = packed(valid);
    Box::new(move |round| probe_indexes(&sort_indexes(black_box(values), &mask), round))
}

pub fn sort_utf8<'a>(bytes: &'a [u8], offsets: &'a [i32], valid: &[u8]) -> Operation<'a> {
    let (texts, mask) = (Texts { bytes, offsets }, packed(valid));
    Box::new(move |round| probe_indexes(&sort_text_indexes(black_box(texts), &mask), round))
}

/// The values have no null.
pub fn sort_limit<'a>(values: &'a [i64]) -> Operation<'a> {
    Box::new(move |round| probe_indexes(&sort_first_indexes(black_box(values)), round))
}

/// A sort of the rows of two columns, of which the second has no null.
pub fn lexsort<'a>(
    kernel: fn(&[i64], &[i64], &Mask) -> Vec<u64>,
    first: &'a [i64],
    second: &'a [i64],
    valid: &[u8],
) -> Operation<'a> {
    let mask = packed(valid);
    Box::new(move |round| probe_indexes(&kernel(black_box(first), second, &mask), round))
}

/// The columns have no null.
pub fn partition<'a>(first: &'a [i64], second: &'a [i64]) -> Operation<'a> {
    Box::new(move |round| {
        let ranges = ranges(black_box(first), second);
        probe(ranges.len(), &None, round, |at| ranges[at].start as u64)
    })
}
