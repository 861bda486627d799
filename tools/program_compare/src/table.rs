//! A table, and what commands do to it.
use std::borrow::Cow;

use arrow2::array::specification::check_indexes;

use crate::command::Command;
use crate::entry::Entry;
use crate::make::{from_items, from_slots, null, parts};
use crate::print::number;
use crate::stop::{meet, refuse_if, told, Reply, Stop, DONE};

#[derive(Default)]
pub struct Table {
    entries: [Option<Entry>; 16],
}

impl Table {
    /// Does a command and appends its reply, with the line feed.
    pub fn run(&mut self, command: Command<'_>, out: &mut Vec<u8>) {
        let reply = match self.step(command, out) {
            Ok(reply) => Cow::Borrowed(reply),
            Err(Stop::NotMet) => Cow::Borrowed("not met"),
            Err(Stop::Refused(why)) => {
                out.extend_from_slice(b"refused: ");
                why
            }
        };
        out.extend_from_slice(reply.as_bytes());
        out.push(b'\n');
    }

    fn step(&mut self, command: Command<'_>, out: &mut Vec<u8>) -> Reply {
        match command {
            Command::New(at, kind) => self.fill(at, || from_items(kind, &[])),
            Command::NewNull(at, kind, count) => self.fill(at, || null(kind, count)),
            Command::Parts(at, raw) => self.fill(at, || parts(*raw)),
            Command::FromSlots(at, kind, slots) => self.fill(at, || from_slots(kind, &slots)),
            Command::FromItems(at, kind, items) => self.fill(at, || from_items(kind, &items)),
            Command::Len(at) => told(number(self.get(at)?.len() as u64, out)),
            Command::Value(at, place) => self.get(at)?.tell_value(place, out),
            Command::Get(at, place) => self.get(at)?.tell_slot(place, out),
            Command::IsNull(at, place) => self.get(at)?.tell_is_null(place),
            Command::NullCount(at) => self.get(at)?.tell_null_count(out),
            Command::Slots(at) => self.get(at)?.tell_slots(out),
            Command::Turns(at, turns) => self.get(at)?.tell_turns(&turns, out),
            Command::TypeOf(at) => self.get(at)?.tell_type(),
            Command::Held(at) => self.get(at)?.tell_held(),
            Command::Bytes(at) => self.get(at)?.tell_bytes(out),
            Command::Offsets(at) => self.get(at)?.tell_offsets(out),
            Command::Slice(at, start, count) => self.get_mut(at)?.slice(start, count),
            Command::Clone(at, to) => {
                let entry = self.get(at)?;
                let place = self.entries.get(to).ok_or(Stop::NotMet)?;
                meet(place.is_none())?;
                self.entries[to] = Some(entry.clone());
                DONE
            }
            Command::Drop(at) => {
                self.get(at)?;
                self.entries[at] = None;
                DONE
            }
            Command::SetMask(at, mask) => self.get_mut(at)?.set_mask(mask),
            Command::ApplyMask(at, named) => self.get_mut(at)?.apply_mask(named),
            Command::SetValues(at, items) => self.get_mut(at)?.set_values(&items),
            Command::ApplyValues(at, named) => self.get_mut(at)?.apply_values(named),
            Command::Set(at, place, slot) => self.get_mut(at)?.set(place, slot),
            Command::Write(at, place, item) => self.get_mut(at)?.write(place, item),
            Command::Push(at, slot) => self.get_mut(at)?.push(slot),
            Command::PushNull(at) => self.get_mut(at)?.push_null(),
            Command::Pop(at) => self.get_mut(at)?.pop(out),
            Command::Extend(at, slots) => self.get_mut(at)?.extend(&slots),
            Command::ExtendValues(at, items) => self.get_mut(at)?.extend_values(&items),
            Command::ExtendConstant(at, count, slot) => self.get_mut(at)?.extend_constant(count, slot),
            // Not of the same entry twice, nor past the table.
            Command::ExtendFromSelf(at, of) => match self.entries.get_disjoint_mut([at, of]) {
                Ok([Some(entry), Some(other)]) => entry.extend_from(other),
                _ => Err(Stop::NotMet),
            },
            Command::Reserve(at, count, bytes) => self.get_mut(at)?.reserve(count, bytes),
            Command::Shrink(at) => self.get_mut(at)?.shrink(),
            Command::Freeze(at) => self.turn(at, Entry::freeze),
            Command::Thaw(at) => self.turn(at, Entry::thaw),
            Command::Nullable(at) => self.turn(at, Entry::nullable),
            Command::To(at, data_type) => self.turn(at, |entry| entry.to(data_type)),
            Command::Equal(at, of) => self.get(at)?.tell_equal(self.get(of)?),
            Command::CheckIndexes(length, keys) => {
                if check_indexes(&keys, length).is_ok() {
                    return DONE;
                }
                // arrow2's text tells the key.
                let is_good = |key: &i64| usize::try_from(*key).is_ok_and(|key| key < length);
                let first = keys.iter().find(|key| !is_good(*key));
                let is_low = first.is_some_and(|key| *key < 0);
                refuse_if(is_low, "the dictionary key must fit in a usize")?;
                refuse_if(!is_low, "a dictionary key must be below the length of the dictionary values")?;
                DONE
            }
        }
    }

    fn get(&self, at: usize) -> Result<&Entry, Stop> {
        self.entries.get(at).and_then(Option::as_ref).ok_or(Stop::NotMet)
    }

    fn get_mut(&mut self, at: usize) -> Result<&mut Entry, Stop> {
        self.entries.get_mut(at).and_then(Option::as_mut).ok_or(Stop::NotMet)
    }

    /// Puts what is made into an empty entry.
    fn fill(&mut self, at: usize, make: impl FnOnce() -> Result<Entry, Stop>) -> Reply {
        let place = self.entries.get_mut(at).ok_or(Stop::NotMet)?;
        meet(place.is_none())?;
        *place = Some(make()?);
        DONE
    }

    /// Replaces an entry by what it becomes.
    fn turn(&mut self, at: usize, change: impl FnOnce(Entry) -> (Entry, &'static str)) -> Reply {
        let place = self.entries.get_mut(at).ok_or(Stop::NotMet)?;
        let (entry, reply) = change(place.take().ok_or(Stop::NotMet)?);
        *place = Some(entry);
        Ok(reply)
    }
}
