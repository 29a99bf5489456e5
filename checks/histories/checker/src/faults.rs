//! Plants faults: each makes a linearizable history into one that no ordered map has, by a change that is a fault in real time for certain. It relies on
//! values that are written once, as `record.c` writes them.
use crate::draws::Draws;
use crate::history::{sum, Bytes, Call, History, Operation, Pair, Reply};
use std::collections::HashMap;

/// Who gave a key a value, and who took it away; by their places among the calls.
#[derive(Clone, Copy, Default)]
struct Life {
    writer: Option<usize>,
    taker: Option<usize>,
}

/// A history, with the values of each key and their lives.
pub struct Lives<'a> {
    history: &'a History,
    lives: HashMap<(&'a Bytes, &'a Bytes), Life>,
    values: HashMap<&'a Bytes, Vec<&'a Bytes>>,
}

/// The value that a call gave its key.
fn written(call: &Call) -> Option<&Bytes> {
    match (&call.operation, &call.reply) {
        (_, Reply::Added(_, sum)) => Some(sum),
        (Operation::Insert(value), Reply::Inserted)
        | (Operation::Upsert(value) | Operation::Add(value), Reply::Set)
        | (Operation::Upsert(value), Reply::Replaced(_))
        | (Operation::Swap(_, value), Reply::Swapped) => Some(value),
        _ => None,
    }
}

/// The value that a call took from its key.
fn taken(call: &Call) -> Option<&Bytes> {
    match (&call.operation, &call.reply) {
        (Operation::Swap(expected, _), Reply::Swapped) => Some(expected),
        (_, Reply::Replaced(old) | Reply::Added(old, _) | Reply::Deleted(old)) => Some(old),
        _ => None,
    }
}

/// The value that a call read.
fn read(call: &Call) -> Option<&Bytes> {
    match &call.reply {
        Reply::Value(value) | Reply::Exists(value) | Reply::Deleted(value) | Reply::Differs(value) => Some(value),
        Reply::Replaced(value) | Reply::Added(value, _) => Some(value),
        _ => None,
    }
}

impl<'a> Lives<'a> {
    pub fn of(history: &'a History) -> Lives<'a> {
        let mut lives: HashMap<(&Bytes, &Bytes), Life> = HashMap::new();
        let mut values: HashMap<&Bytes, Vec<&Bytes>> = HashMap::new();
        for (place, call) in history.calls.iter().enumerate() {
            if let Some(value) = written(call) {
                lives.entry((&call.key, value)).or_default().writer = Some(place);
                values.entry(&call.key).or_default().push(value);
            }
            if let Some(value) = taken(call) {
                lives.entry((&call.key, value)).or_default().taker = Some(place);
            }
        }
        Lives { history, lives, values }
    }

    fn writer(&self, key: &Bytes, value: &Bytes) -> Option<&Call> {
        Some(&self.history.calls[self.lives.get(&(key, value))?.writer?])
    }

    fn taker(&self, key: &Bytes, value: &Bytes) -> Option<&Call> {
        Some(&self.history.calls[self.lives.get(&(key, value))?.taker?])
    }

    /// Whether a key has a value from before a call's start to after its end, for certain.
    fn stays(&self, key: &Bytes, value: &Bytes, call: &Call) -> bool {
        self.writer(key, value).is_some_and(|writer| writer.end < call.start) && self.taker(key, value).is_none_or(|taker| taker.start > call.end)
    }

    /// A value of a key of which something is so.
    fn value(&self, key: &Bytes, draws: &mut Draws, is_so: impl Fn(&Bytes) -> bool) -> Option<Bytes> {
        let values: Vec<&&Bytes> = self.values.get(key)?.iter().filter(|value| is_so(value)).collect();
        draws.one(&values).map(|value| (**value).clone())
    }

    /// A value that a key lost for certain before a time.
    fn gone(&self, key: &Bytes, time: u64, draws: &mut Draws) -> Option<Bytes> {
        self.value(key, draws, |value| self.taker(key, value).is_some_and(|taker| taker.end < time))
    }

    /// A value that a key got for certain after a time.
    fn coming(&self, key: &Bytes, time: u64, draws: &mut Draws) -> Option<Bytes> {
        self.value(key, draws, |value| self.writer(key, value).is_some_and(|writer| writer.start > time))
    }

    /// Whether another call read the value that this one wrote.
    fn is_seen(&self, call: &Call) -> bool {
        written(call).is_some_and(|value| self.history.calls.iter().any(|other| other.key == call.key && read(other) == Some(value)))
    }

    /// The history with another reply of one call.
    fn with(&self, place: usize, reply: Reply) -> Option<History> {
        let mut history = self.history.clone();
        history.calls[place].reply = reply;
        Some(history)
    }

    fn with_listing(&self, listing: Vec<Pair>) -> Option<History> {
        Some(History { listing, ..self.history.clone() })
    }
}

/// Plants a fault at a call, if there is one to plant.
type Plant = fn(&Lives, usize, &mut Draws) -> Option<History>;

/// Each fault, with what it is.
pub const FAULTS: [(&str, Plant); 25] = [
    ("a get returns a value that was gone before", stale_get),
    ("a get returns a value that comes later", early_get),
    ("a get does not find a key that is there", lost_get),
    ("an insert finds a value that was gone before", stale_exists),
    ("a delete does not find what it deleted", delete_finds_nothing),
    ("a delete returns a value that was gone before", delete_of_gone),
    ("an update that others read was refused as full", full_though_seen),
    ("an update is not there", lost_update),
    ("two updates changed places in time", replies_exchanged),
    ("an update and its reader changed places in time", times_exchanged),
    ("a compare-and-set won against another value", swap_wins_wrongly),
    ("a compare-and-set won against a value that was gone", swap_of_gone),
    ("a compare-and-set found a value that was gone", swap_finds_gone),
    ("a deletion by value deleted another value", delete_if_wins_wrongly),
    ("an addition added to a value that was gone", add_to_gone),
    ("an addition does not find a number that is there", add_finds_nothing),
    ("an addition changes its number", add_of_another),
    ("a page leaves a pair out", page_without_pair),
    ("a page shows a value that was gone", page_with_gone_value),
    ("a page shows a key that was deleted", page_with_deleted_key),
    ("a page ends though keys follow", page_ends_early),
    ("a page shows states of two moments", page_of_two_moments),
    ("the listing lost a pair", listing_without_pair),
    ("the listing has a value that was gone", listing_with_gone_value),
    ("the listing has a key that was deleted", listing_with_deleted_key),
];

fn stale_get(lives: &Lives, place: usize, draws: &mut Draws) -> Option<History> {
    let call = &lives.history.calls[place];
    let Reply::Value(_) = call.reply else { return None };
    lives.with(place, Reply::Value(lives.gone(&call.key, call.start, draws)?))
}

fn early_get(lives: &Lives, place: usize, draws: &mut Draws) -> Option<History> {
    let call = &lives.history.calls[place];
    let Reply::Value(_) = call.reply else { return None };
    lives.with(place, Reply::Value(lives.coming(&call.key, call.end, draws)?))
}

fn lost_get(lives: &Lives, place: usize, _: &mut Draws) -> Option<History> {
    let call = &lives.history.calls[place];
    let Reply::Value(value) = &call.reply else { return None };
    lives.stays(&call.key, value, call).then(|| lives.with(place, Reply::Absent))?
}

fn stale_exists(lives: &Lives, place: usize, draws: &mut Draws) -> Option<History> {
    let call = &lives.history.calls[place];
    let Reply::Exists(_) = call.reply else { return None };
    lives.with(place, Reply::Exists(lives.gone(&call.key, call.start, draws)?))
}

fn delete_finds_nothing(lives: &Lives, place: usize, _: &mut Draws) -> Option<History> {
    let call = &lives.history.calls[place];
    let Reply::Deleted(value) = &call.reply else { return None };
    (lives.writer(&call.key, value)?.end < call.start).then(|| lives.with(place, Reply::Absent))?
}

fn delete_of_gone(lives: &Lives, place: usize, draws: &mut Draws) -> Option<History> {
    let call = &lives.history.calls[place];
    if call.operation != Operation::Delete || call.reply == Reply::Full {
        return None;
    }
    lives.with(place, Reply::Deleted(lives.gone(&call.key, call.start, draws)?))
}

fn full_though_seen(lives: &Lives, place: usize, _: &mut Draws) -> Option<History> {
    lives.is_seen(&lives.history.calls[place]).then(|| lives.with(place, Reply::Full))?
}

fn lost_update(lives: &Lives, place: usize, _: &mut Draws) -> Option<History> {
    let mut history = lives.history.clone();
    let call = history.calls.remove(place);
    lives.is_seen(&call).then_some(history)
}

/// Two upserts of one key, the second of which replaced what came after the first, return each other's values.
fn replies_exchanged(lives: &Lives, place: usize, draws: &mut Draws) -> Option<History> {
    let calls = &lives.history.calls;
    let first = &calls[place];
    let Reply::Replaced(_) = first.reply else { return None };
    let is_second = |second: &Call| {
        let Reply::Replaced(old) = &second.reply else { return false };
        second.key == first.key && lives.writer(&first.key, old).is_some_and(|writer| writer.start > first.end && writer.start < second.start)
    };
    let seconds: Vec<usize> = (0..calls.len()).filter(|second| is_second(&calls[*second])).collect();
    let second = *draws.one(&seconds)?;
    let mut history = lives.with(place, calls[second].reply.clone())?;
    history.calls[second].reply = first.reply.clone();
    Some(history)
}

/// A get that came after an update and returned its value comes before it.
fn times_exchanged(lives: &Lives, place: usize, _: &mut Draws) -> Option<History> {
    let get = &lives.history.calls[place];
    let Reply::Value(value) = &get.reply else { return None };
    let writer = lives.lives.get(&(&get.key, value))?.writer?;
    let mut history = lives.history.clone();
    let (start, end) = (history.calls[writer].start, history.calls[writer].end);
    if end >= get.start {
        return None;
    }
    (history.calls[writer].start, history.calls[writer].end) = (get.start, get.end);
    (history.calls[place].start, history.calls[place].end) = (start, end);
    Some(history)
}

fn swap_wins_wrongly(lives: &Lives, place: usize, _: &mut Draws) -> Option<History> {
    let call = &lives.history.calls[place];
    let Reply::Differs(value) = &call.reply else { return None };
    lives.stays(&call.key, value, call).then(|| lives.with(place, Reply::Swapped))?
}

fn swap_of_gone(lives: &Lives, place: usize, draws: &mut Draws) -> Option<History> {
    let call = &lives.history.calls[place];
    let (Operation::Swap(_, value), Reply::Swapped) = (&call.operation, &call.reply) else { return None };
    let mut history = lives.history.clone();
    history.calls[place].operation = Operation::Swap(lives.gone(&call.key, call.start, draws)?, value.clone());
    Some(history)
}

fn swap_finds_gone(lives: &Lives, place: usize, draws: &mut Draws) -> Option<History> {
    let call = &lives.history.calls[place];
    let (Operation::Swap(expected, _), Reply::Differs(_)) = (&call.operation, &call.reply) else { return None };
    let gone = lives.gone(&call.key, call.start, draws)?;
    (gone != *expected).then(|| lives.with(place, Reply::Differs(gone)))?
}

fn delete_if_wins_wrongly(lives: &Lives, place: usize, _: &mut Draws) -> Option<History> {
    let call = &lives.history.calls[place];
    let (Operation::DeleteIf(expected), Reply::Differs(value)) = (&call.operation, &call.reply) else { return None };
    lives.stays(&call.key, value, call).then(|| lives.with(place, Reply::Deleted(expected.clone())))?
}

fn add_to_gone(lives: &Lives, place: usize, draws: &mut Draws) -> Option<History> {
    let call = &lives.history.calls[place];
    let (Operation::Add(number), Reply::Added(..)) = (&call.operation, &call.reply) else { return None };
    let gone = lives.gone(&call.key, call.start, draws)?;
    lives.with(place, Reply::Added(gone.clone(), sum(&gone, number)?))
}

fn add_finds_nothing(lives: &Lives, place: usize, _: &mut Draws) -> Option<History> {
    let call = &lives.history.calls[place];
    let Reply::Added(old, _) = &call.reply else { return None };
    (lives.writer(&call.key, old)?.end < call.start).then(|| lives.with(place, Reply::Set))?
}

/// The sum that others read is of another number.
fn add_of_another(lives: &Lives, place: usize, draws: &mut Draws) -> Option<History> {
    let call = &lives.history.calls[place];
    let Reply::Added(old, _) = &call.reply else { return None };
    let number: Bytes = (0..8).map(|_| draws.below(256) as u8).collect();
    let mut history = lives.with(place, Reply::Added(old.clone(), sum(old, &number)?))?;
    history.calls[place].operation = Operation::Add(number);
    lives.is_seen(call).then_some(history)
}

/// The pairs of a page and where the next one continues.
fn page(call: &Call) -> Option<(Vec<Pair>, Option<Bytes>)> {
    match &call.reply {
        Reply::Page(pairs, next) => Some((pairs.clone(), next.clone())),
        _ => None,
    }
}

/// Whether a page of a call, of either direction, has a key, if the key has a value.
fn is_within(call: &Call, next: Option<&Bytes>, key: &Bytes) -> bool {
    if call.operation == Operation::Back {
        return *key <= call.key && next.is_none_or(|next| key > next);
    }
    *key >= call.key && next.is_none_or(|next| key < next)
}

fn page_without_pair(lives: &Lives, place: usize, draws: &mut Draws) -> Option<History> {
    let call = &lives.history.calls[place];
    let (mut pairs, next) = page(call)?;
    let (key, value) = draws.one(&pairs)?.clone();
    pairs.retain(|pair| pair.0 != key);
    lives.stays(&key, &value, call).then(|| lives.with(place, Reply::Page(pairs, next)))?
}

fn page_with_gone_value(lives: &Lives, place: usize, draws: &mut Draws) -> Option<History> {
    let call = &lives.history.calls[place];
    let (mut pairs, next) = page(call)?;
    let key = draws.one(&pairs)?.0.clone();
    let gone = lives.gone(&key, call.start, draws)?;
    pairs.iter_mut().filter(|pair| pair.0 == key).for_each(|pair| pair.1 = gone.clone());
    lives.with(place, Reply::Page(pairs, next))
}

fn page_with_deleted_key(lives: &Lives, place: usize, draws: &mut Draws) -> Option<History> {
    let call = &lives.history.calls[place];
    let (mut pairs, next) = page(call)?;
    let is_left_out = |key: &Bytes| is_within(call, next.as_ref(), key) && pairs.iter().all(|pair| pair.0 != *key);
    let mut keys: Vec<&Bytes> = lives.values.keys().copied().filter(|key| is_left_out(key)).collect();
    keys.sort();
    let key = (*draws.one(&keys)?).clone();
    let gone = lives.gone(&key, call.start, draws)?;
    pairs.push((key, gone));
    pairs.sort();
    (pairs.len() <= 24).then(|| lives.with(place, Reply::Page(pairs, next)))?
}

fn page_ends_early(lives: &Lives, place: usize, _: &mut Draws) -> Option<History> {
    let call = &lives.history.calls[place];
    let (pairs, next) = page(call)?;
    let next = next?;
    let follows = |(key, value): &(&Bytes, &Bytes)| is_within(call, None, key) && !is_within(call, Some(&next), key) && lives.stays(key, value, call);
    lives.lives.keys().any(follows).then(|| lives.with(place, Reply::Page(pairs, None)))?
}

/// One pair's value is older: its key had it while the page was read, but lost it before another pair of the page came.
fn page_of_two_moments(lives: &Lives, place: usize, draws: &mut Draws) -> Option<History> {
    let call = &lives.history.calls[place];
    let (mut pairs, next) = page(call)?;
    let (key, value) = draws.one(&pairs)?.clone();
    let is_torn = |old: &Bytes| {
        let (Some(writer), Some(taker)) = (lives.writer(&key, old), lives.taker(&key, old)) else { return false };
        let comes_later = |pair: &Pair| pair.0 != key && lives.writer(&pair.0, &pair.1).is_some_and(|writer| writer.start > taker.end);
        *old != value && writer.start < call.end && taker.end > call.start && pairs.iter().any(comes_later)
    };
    let old = lives.value(&key, draws, is_torn)?;
    pairs.iter_mut().filter(|pair| pair.0 == key).for_each(|pair| pair.1 = old.clone());
    lives.with(place, Reply::Page(pairs, next))
}

fn listing_without_pair(lives: &Lives, _: usize, draws: &mut Draws) -> Option<History> {
    let mut listing = lives.history.listing.clone();
    let key = draws.one(&listing)?.0.clone();
    listing.retain(|pair| pair.0 != key);
    lives.with_listing(listing)
}

fn listing_with_gone_value(lives: &Lives, _: usize, draws: &mut Draws) -> Option<History> {
    let mut listing = lives.history.listing.clone();
    let key = draws.one(&listing)?.0.clone();
    let gone = lives.gone(&key, u64::MAX, draws)?;
    listing.iter_mut().filter(|pair| pair.0 == key).for_each(|pair| pair.1 = gone.clone());
    lives.with_listing(listing)
}

fn listing_with_deleted_key(lives: &Lives, place: usize, draws: &mut Draws) -> Option<History> {
    let mut listing = lives.history.listing.clone();
    let key = &lives.history.calls[place].key;
    let gone = lives.gone(key, u64::MAX, draws)?;
    if listing.iter().any(|pair| pair.0 == *key) {
        return None;
    }
    listing.push((key.clone(), gone));
    listing.sort();
    lives.with_listing(listing)
}

/// How many calls are tried to find a place for a fault.
const TRIES: usize = 20_000;

/// The history with one fault, somewhere; none where no place for it was found.
pub fn planted(lives: &Lives, plant: Plant, draws: &mut Draws) -> Option<History> {
    (0..TRIES).find_map(|_| plant(lives, draws.below(lives.history.calls.len()), draws))
}

#[cfg(test)]
mod tests {
    use super::*;
    use crate::judge::{judge, Judgement};
    use crate::simulate::{simulate, Plan};

    /// Plants a fault in simulated histories until it was there often enough: each is refused.
    fn is_refused(plant: Plant) {
        let (mut draws, mut planted_ones) = (Draws::new(11), 0);
        for seed in 0..400 {
            let plan = Plan { seats: 5, calls: 700, keys: 9, span: 1, pages: 1, torn: false };
            let history = simulate(&plan, &mut Draws::new(seed));
            let Some(faulty) = planted(&Lives::of(&history), plant, &mut draws) else { continue };
            assert_eq!(judge(&history), Judgement::Linearizable);
            assert!(matches!(judge(&faulty), Judgement::Refused(_)), "seed {seed}");
            planted_ones += 1;
            if planted_ones == 10 {
                return;
            }
        }
        panic!("planted {planted_ones} times only");
    }

    macro_rules! refused {
        ($($fault:ident)*) => { $(#[test] fn $fault() { is_refused(super::$fault) })* };
    }

    refused!(stale_get early_get lost_get stale_exists delete_finds_nothing delete_of_gone full_though_seen lost_update replies_exchanged);
    refused!(times_exchanged swap_wins_wrongly swap_of_gone swap_finds_gone page_without_pair page_with_gone_value page_with_deleted_key);
    refused!(delete_if_wins_wrongly add_to_gone add_finds_nothing add_of_another);
    refused!(page_ends_early page_of_two_moments listing_without_pair listing_with_gone_value listing_with_deleted_key);
}
