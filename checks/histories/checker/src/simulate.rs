//! Histories of a map with known linearization points, for tests of the checker: seats take turns at random; a call begins, takes effect at one of its
//! seat's later turns, and ends at another one.
use crate::draws::Draws;
use crate::history::{sum, Bytes, Call, History, Operation, Reply};
use std::collections::BTreeMap;

pub struct Plan {
    pub seats: usize,
    pub calls: usize,
    pub keys: usize,
    /// A value is written once where this is 1, and else it is one of so many.
    pub span: usize,
    /// How many of eight calls are pages.
    pub pages: usize,
    /// Whether a page is wrongly read at two moments: its first key when it takes effect, the others when it ends.
    pub torn: bool,
}

struct Simulation<'a> {
    plan: &'a Plan,
    draws: &'a mut Draws,
    map: BTreeMap<Bytes, Bytes>,
    history: History,
    time: u64,
    /// For each seat, its call under way, and whether that took effect.
    under_way: Vec<Option<(usize, bool)>>,
}

impl Simulation<'_> {
    fn key(&mut self) -> Bytes {
        vec![b'a' + self.draws.below(self.plan.keys) as u8]
    }

    fn value(&mut self) -> Bytes {
        let number = if self.plan.span == 1 { self.history.calls.len() } else { self.draws.below(self.plan.span) };
        vec![(number >> 8) as u8, number as u8]
    }

    fn operation(&mut self, key: &Bytes) -> Operation {
        let value = self.value();
        if self.draws.below(8) < self.plan.pages {
            return if self.draws.one_in(2) { Operation::Page } else { Operation::Back };
        }
        match self.draws.below(10) {
            0 | 1 => Operation::Get,
            2 => Operation::Insert(value),
            3 | 4 => Operation::Upsert(value),
            5 => Operation::Delete,
            6 | 7 => Operation::Add(self.number()),
            8 => Operation::DeleteIf(self.expected(key)),
            _ => Operation::Swap(self.expected(key), value),
        }
    }

    /// The value that a key has at the moment, or another one.
    fn expected(&mut self, key: &Bytes) -> Bytes {
        let now = self.map.get(key).filter(|_| !self.draws.one_in(3)).cloned();
        now.unwrap_or_else(|| vec![0, self.draws.below(200) as u8])
    }

    /// A number to add: where values are written once, of so many that no sum comes twice.
    fn number(&mut self) -> Bytes {
        let parts = (0..4).map(|_| self.draws.below(1 << 16) as u16).flat_map(u16::to_be_bytes);
        if self.plan.span == 1 {
            parts.collect()
        } else {
            vec![0, 0, 0, 0, 0, 0, 0, self.draws.below(self.plan.span) as u8]
        }
    }

    fn begin(&mut self, seat: usize) {
        let key = self.key();
        let operation = self.operation(&key);
        self.time += 1;
        let line = self.history.calls.len() + 1;
        self.under_way[seat] = Some((self.history.calls.len(), false));
        self.history.calls.push(Call { seat, start: self.time, end: 0, operation, key, reply: Reply::Full, line });
    }

    fn reply(&mut self, operation: &Operation, key: &Bytes) -> Reply {
        match (operation, self.map.get(key).cloned()) {
            (Operation::Page, _) => self.page(key),
            (Operation::Back, _) => self.back(key),
            (Operation::Add(_), None) => Reply::Set,
            (Operation::Add(number), Some(value)) => match sum(&value, number) {
                Some(sum) => Reply::Added(value, sum),
                None => Reply::Differs(value),
            },
            (Operation::Tidy, _) => Reply::Tidied,
            (Operation::Get, None) | (Operation::Delete | Operation::DeleteIf(_) | Operation::Swap(..), None) => Reply::Absent,
            (Operation::Get, Some(value)) => Reply::Value(value),
            (Operation::Insert(_), Some(value)) => Reply::Exists(value),
            (Operation::Insert(_), None) => Reply::Inserted,
            (Operation::Upsert(_), None) => Reply::Set,
            (Operation::Upsert(_), Some(value)) => Reply::Replaced(value),
            (Operation::Delete, Some(value)) => Reply::Deleted(value),
            (Operation::Swap(expected, _), Some(value)) if value == *expected => Reply::Swapped,
            (Operation::DeleteIf(expected), Some(value)) if value == *expected => Reply::Deleted(value),
            (Operation::DeleteIf(_) | Operation::Swap(..), Some(value)) => Reply::Differs(value),
        }
    }

    fn page(&mut self, key: &Bytes) -> Reply {
        let next = self.key();
        let next = Some(next).filter(|next| next > key);
        let is_shown = |found: &Bytes| found >= key && next.as_ref().is_none_or(|next| found < next);
        let pairs = self.map.iter().filter(|pair| is_shown(pair.0)).map(|(key, value)| (key.clone(), value.clone())).collect();
        Reply::Page(pairs, next)
    }

    fn back(&mut self, key: &Bytes) -> Reply {
        let next = self.key();
        let next = Some(next).filter(|next| next < key);
        let is_shown = |found: &Bytes| found <= key && next.as_ref().is_none_or(|next| found > next);
        let pairs = self.map.iter().filter(|pair| is_shown(pair.0)).map(|(key, value)| (key.clone(), value.clone())).collect();
        Reply::Page(pairs, next)
    }

    /// A call takes effect, or, seldom, none: it is refused as full.
    fn take_effect(&mut self, place: usize) {
        let Call { operation, key, .. } = self.history.calls[place].clone();
        let updates = !matches!(operation, Operation::Get | Operation::Page | Operation::Back);
        if updates && self.draws.one_in(30) {
            return;
        }
        let reply = self.reply(&operation, &key);
        match (operation, &reply) {
            (Operation::Insert(value), Reply::Inserted) | (Operation::Upsert(value), _) | (Operation::Swap(_, value), Reply::Swapped) => {
                self.map.insert(key, value);
            }
            (Operation::Add(number), Reply::Set) => {
                self.map.insert(key, number);
            }
            (_, Reply::Added(_, sum)) => {
                self.map.insert(key, sum.clone());
            }
            (_, Reply::Deleted(_)) => {
                self.map.remove(&key);
            }
            _ => {}
        }
        self.history.calls[place].reply = reply;
    }

    /// Reads all keys of a page but the one that it begins at once more.
    fn tear(&mut self, place: usize) {
        let call = &mut self.history.calls[place];
        let Reply::Page(pairs, next) = &mut call.reply else { return };
        let is_back = call.operation == Operation::Back;
        let is_shown = |key: &Bytes| match (is_back, &next) {
            (false, next) => *key > call.key && next.as_ref().is_none_or(|next| key < next),
            (true, next) => *key < call.key && next.as_ref().is_none_or(|next| key > next),
        };
        pairs.retain(|pair| pair.0 == call.key);
        pairs.extend(self.map.iter().filter(|pair| is_shown(pair.0)).map(|(key, value)| (key.clone(), value.clone())));
        pairs.sort();
    }

    fn turn(&mut self, seat: usize) {
        match self.under_way[seat] {
            None if self.history.calls.len() < self.plan.calls => self.begin(seat),
            None => {}
            Some((place, false)) => {
                self.take_effect(place);
                self.under_way[seat] = Some((place, true));
            }
            // there is time for other calls between the two moments
            Some((_, true)) if self.plan.torn && !self.draws.one_in(6) => {}
            Some((place, true)) => {
                if self.plan.torn {
                    self.tear(place);
                }
                self.time += 1;
                self.history.calls[place].end = self.time;
                self.under_way[seat] = None;
            }
        }
    }
}

pub fn simulate(plan: &Plan, draws: &mut Draws) -> History {
    let under_way = vec![None; plan.seats];
    let mut simulation = Simulation { plan, draws, map: BTreeMap::new(), history: History::default(), time: 0, under_way };
    while simulation.history.calls.len() < plan.calls || simulation.under_way.iter().any(Option::is_some) {
        let seat = simulation.draws.below(plan.seats);
        simulation.turn(seat);
    }
    let Simulation { map, mut history, .. } = simulation;
    history.listing = map.into_iter().collect();
    history
}
