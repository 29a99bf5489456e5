//! What the replies of a history claim about the map, in numbers: each event is a condition on the states of some keys, and perhaps a new state of one.
use crate::history::{Bytes, Call, History, Operation, Pair, Reply};
use std::collections::{BTreeSet, HashMap};

/// The state of a key: absent, or the number of a value.
pub type State = u32;
pub const ABSENT: State = 0;

#[derive(Clone, Debug, PartialEq, Eq)]
pub enum Claim {
    /// A key has the state `before`, and from then on the state `after`.
    Key { key: u32, before: State, after: State },
    /// The keys from `first` to below `past` have the states that are listed, and those that are not listed are absent.
    Page { first: u32, past: u32, listed: Vec<(u32, State)> },
}

impl Claim {
    /// Whether it changes no key.
    pub fn reads(&self) -> bool {
        !matches!(self, Claim::Key { before, after, .. } if before != after)
    }

    /// The keys that it is about: the first, and the one past the last.
    pub fn range(&self) -> (u32, u32) {
        match self {
            Claim::Key { key, .. } => (*key, *key + 1),
            Claim::Page { first, past, .. } => (*first, *past),
        }
    }

    /// The keys that it is about, each with the state that it claims for it.
    pub fn states(&self) -> Vec<(u32, State)> {
        match self {
            Claim::Key { key, before, .. } => vec![(*key, *before)],
            Claim::Page { first, past, listed } => {
                let mut left = listed.iter().peekable();
                (*first..*past).map(|key| (key, left.next_if(|pair| pair.0 == key).map_or(ABSENT, |pair| pair.1))).collect()
            }
        }
    }
}

/// A claim that takes effect at one moment between `start` and `end`.
#[derive(Clone, Debug)]
pub struct Event {
    /// The place of the call in the history; none for the listing.
    pub call: Option<usize>,
    pub start: u64,
    pub end: u64,
    pub claim: Claim,
}

/// A history in numbers: keys by their rank, values by their first mention.
pub struct Claims {
    pub keys: Vec<Bytes>,
    pub values: Vec<Bytes>,
    pub events: Vec<Event>,
}

/// The most pairs of a page.
const PAGE_PAIRS: usize = 24;

fn ascends(pairs: &[Pair]) -> bool {
    pairs.windows(2).all(|two| two[0].0 < two[1].0)
}

/// What is wrong with a page by itself.
fn fault_of_page(from: &Bytes, pairs: &[Pair], next: Option<&Bytes>) -> Option<&'static str> {
    if pairs.len() > PAGE_PAIRS {
        return Some("a page with too many pairs");
    }
    if !ascends(pairs) {
        return Some("keys of a page that do not ascend");
    }
    if pairs.first().is_some_and(|pair| pair.0 < *from) {
        return Some("a key before the start of its page");
    }
    let last = pairs.last().map_or(from, |pair| &pair.0);
    next.filter(|next| *next <= last).map(|_| "a page that continues before its end")
}

/// What is wrong with a page backward by itself.
fn fault_of_back(upto: &Bytes, pairs: &[Pair], next: Option<&Bytes>) -> Option<&'static str> {
    if pairs.len() > PAGE_PAIRS {
        return Some("a page backward with too many pairs");
    }
    if !ascends(pairs) {
        return Some("keys of a page backward that do not ascend");
    }
    if pairs.last().is_some_and(|pair| pair.0 > *upto) {
        return Some("a key behind the start of its page backward");
    }
    let first = pairs.first().map_or(upto, |pair| &pair.0);
    next.filter(|next| *next >= first).map(|_| "a page backward that continues before its end")
}

/// What is wrong with a call whatever the others say: a reply that its operation does not have, or a malformed one.
fn fault_of_call(call: &Call) -> Option<&'static str> {
    use {Operation as O, Reply as R};
    if call.start >= call.end {
        return Some("a call that ends before it begins");
    }
    match (&call.operation, &call.reply) {
        (O::Get, R::Value(_) | R::Absent) => None,
        (O::Insert(_), R::Inserted | R::Exists(_) | R::Full) => None,
        (O::Upsert(_), R::Set | R::Replaced(_) | R::Full) => None,
        (O::Delete, R::Deleted(_) | R::Absent | R::Full) => None,
        (O::Swap(expected, _), R::Differs(found)) if found == expected => Some("a value that differs from itself"),
        (O::Swap(..), R::Swapped | R::Differs(_) | R::Absent | R::Full) => None,
        (O::DeleteIf(expected), R::Differs(found)) if found == expected => Some("a value that differs from itself"),
        (O::DeleteIf(expected), R::Deleted(found)) if found != expected => Some("another value than the expected one was deleted"),
        (O::DeleteIf(_), R::Deleted(_) | R::Differs(_) | R::Absent | R::Full) => None,
        (O::Add(_), R::Differs(found)) if found.len() == 8 => Some("a number to which nothing is added"),
        (O::Add(_), R::Set | R::Added(..) | R::Differs(_) | R::Full) => None,
        (O::Tidy, R::Tidied | R::Full) => None,
        (O::Page, R::Page(pairs, next)) => fault_of_page(&call.key, pairs, next.as_ref()),
        (O::Back, R::Page(pairs, next)) => fault_of_back(&call.key, pairs, next.as_ref()),
        _ => Some("a reply of another operation"),
    }
}

/// All keys that a call or its reply names.
fn keys_of(call: &Call) -> Vec<&Bytes> {
    match &call.reply {
        Reply::Page(pairs, _) => pairs.iter().map(|pair| &pair.0).collect(),
        _ if call.operation == Operation::Tidy => Vec::new(),
        _ => vec![&call.key],
    }
}

/// The numbers of keys and values.
struct Numbers {
    keys: Vec<Bytes>,
    values: Vec<Bytes>,
    value_numbers: HashMap<Bytes, State>,
}

impl Numbers {
    fn of(history: &History) -> Numbers {
        let called = history.calls.iter().flat_map(keys_of);
        let keys: BTreeSet<&Bytes> = called.chain(history.listing.iter().map(|pair| &pair.0)).collect();
        Numbers { keys: keys.into_iter().cloned().collect(), values: vec![Vec::new()], value_numbers: HashMap::new() }
    }

    /// How many keys are below this one.
    fn rank(&self, key: &Bytes) -> u32 {
        self.keys.partition_point(|other| other < key) as u32
    }

    /// How many keys are not above this one.
    fn rank_behind(&self, key: &Bytes) -> u32 {
        self.keys.partition_point(|other| other <= key) as u32
    }

    fn state(&mut self, value: &Bytes) -> State {
        if let Some(number) = self.value_numbers.get(value) {
            return *number;
        }
        let number = self.values.len() as State;
        self.values.push(value.clone());
        self.value_numbers.insert(value.clone(), number);
        number
    }

    fn listed(&mut self, pairs: &[Pair]) -> Vec<(u32, State)> {
        pairs.iter().map(|(key, value)| (self.rank(key), self.state(value))).collect()
    }

    /// What a call's reply claims; none of one that claims nothing.
    fn claim(&mut self, call: &Call) -> Option<Claim> {
        let (before, after) = match (&call.operation, &call.reply) {
            (_, Reply::Full | Reply::Tidied) => return None,
            (Operation::Back, Reply::Page(pairs, next)) => {
                let first = next.as_ref().map_or(0, |next| self.rank_behind(next));
                return Some(Claim::Page { first, past: self.rank_behind(&call.key), listed: self.listed(pairs) });
            }
            (_, Reply::Page(pairs, next)) => {
                let past = next.as_ref().map_or(self.keys.len() as u32, |next| self.rank(next));
                return Some(Claim::Page { first: self.rank(&call.key), past, listed: self.listed(pairs) });
            }
            (_, Reply::Value(value) | Reply::Exists(value) | Reply::Differs(value)) => (self.state(value), self.state(value)),
            (_, Reply::Deleted(value)) => (self.state(value), ABSENT),
            (_, Reply::Added(old, sum)) => (self.state(old), self.state(sum)),
            (Operation::Add(number), Reply::Set) => (ABSENT, self.state(number)),
            (Operation::Insert(value) | Operation::Upsert(value), Reply::Inserted | Reply::Set) => (ABSENT, self.state(value)),
            (Operation::Upsert(value), Reply::Replaced(old)) => (self.state(old), self.state(value)),
            (Operation::Swap(expected, value), Reply::Swapped) => (self.state(expected), self.state(value)),
            _ => (ABSENT, ABSENT),
        };
        Some(Claim::Key { key: self.rank(&call.key), before, after })
    }
}

/// What a history claims; or what is wrong with single calls.
pub fn claims(history: &History) -> Result<Claims, String> {
    if let Some((call, fault)) = history.calls.iter().find_map(|call| Some((call, fault_of_call(call)?))) {
        return Err(format!("{fault}, line {}: {call}", call.line));
    }
    if !ascends(&history.listing) {
        return Err("keys of the listing that do not ascend".into());
    }
    let mut numbers = Numbers::of(history);
    let mut events = Vec::new();
    for (place, call) in history.calls.iter().enumerate() {
        if let Some(claim) = numbers.claim(call) {
            events.push(Event { call: Some(place), start: call.start, end: call.end, claim });
        }
    }
    let last = history.calls.iter().map(|call| call.end).max().unwrap_or(0);
    let listed = numbers.listed(&history.listing);
    let listing = Claim::Page { first: 0, past: numbers.keys.len() as u32, listed };
    events.push(Event { call: None, start: last + 1, end: last + 2, claim: listing });
    Ok(Claims { keys: numbers.keys, values: numbers.values, events })
}

impl Claims {
    /// The events of each key by itself. Of a page, these are the pairs that it shows; of the listing, all keys, since all keys that it does not show
    /// are absent at the end.
    pub fn by_key(&self) -> Vec<Vec<Event>> {
        let mut all: Vec<Vec<Event>> = vec![Vec::new(); self.keys.len()];
        for event in &self.events {
            let states = match &event.claim {
                Claim::Key { key, .. } => {
                    all[*key as usize].push(event.clone());
                    continue;
                }
                Claim::Page { listed, .. } if event.call.is_some() => listed.clone(),
                claim => claim.states(),
            };
            for (key, state) in states {
                all[key as usize].push(Event { claim: Claim::Key { key, before: state, after: state }, ..*event });
            }
        }
        all
    }

    /// Whether some call claims the states of several keys at one moment. The listing does not count: it comes after all calls, so its claims hold
    /// together where each of them does.
    pub fn has_pages(&self) -> bool {
        self.events.iter().any(|event| event.call.is_some() && matches!(event.claim, Claim::Page { .. }))
    }
}

#[cfg(test)]
mod tests {
    use super::*;
    use crate::history::parse;

    /// Whether the calls of a history, closed with no pairs, are well-formed one by one.
    fn is_well_formed(call: &str) -> bool {
        claims(&parse(&format!("{call}\nclosed\nend\n")).unwrap()).is_ok()
    }

    #[test]
    fn malformed_replies_are_refused() {
        assert!(is_well_formed("call 0 1 2 get x61 absent"));
        assert!(is_well_formed("call 0 1 2 page x61 pairs x61 x01 x62 x01 next x63"));
        assert!(is_well_formed("call 0 1 2 back x62 pairs x61 x01 x62 x01 next x60"));
        assert!(is_well_formed("call 0 1 2 add x61 x0000000000000001 differs x01"));
        for call in [
            "call 0 2 2 get x61 absent",
            "call 0 1 2 get x61 full",
            "call 0 1 2 page x61 full",
            "call 0 1 2 insert x61 x01 replaced x02",
            "call 0 1 2 swap x61 x01 x02 differs x01",
            "call 0 1 2 page x61 pairs x60 x01 end",
            "call 0 1 2 page x61 pairs x62 x01 x62 x01 end",
            "call 0 1 2 page x61 pairs x62 x01 next x62",
            "call 0 1 2 page x61 pairs next x61",
            "call 0 1 2 back x61 pairs x62 x01 end",
            "call 0 1 2 back x62 pairs x61 x01 x61 x01 end",
            "call 0 1 2 back x62 pairs x61 x01 next x61",
            "call 0 1 2 back x61 pairs next x61",
            "call 0 1 2 delete_if x61 x01 deleted x02",
            "call 0 1 2 delete_if x61 x01 differs x01",
            "call 0 1 2 add x61 x0000000000000001 differs x0000000000000001",
            "call 0 1 2 add x61 x0000000000000001 absent",
        ] {
            assert!(!is_well_formed(call), "{call}");
        }
        let pairs: String = (0..25).map(|key| format!(" x{key:02x} x01")).collect();
        assert!(!is_well_formed(&format!("call 0 1 2 page x pairs{pairs} end")));
    }
}
