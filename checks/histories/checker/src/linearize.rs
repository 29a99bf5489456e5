//! Whether events have a linearization: an order in which each takes effect between its start and its end, and each claim holds at its place.
//!
//! The search is that of Wing and Gong (*Testing and verifying concurrent objects*, 1993) in the form of Lowe's just-in-time linearization (*Testing for
//! linearizability*, 2017). It passes over the starts and ends in the order of time, with all *configurations* that are possible at that moment: the
//! states of the keys, and which of the pending events took effect already. When an event ends, each configuration in which it has not taken effect
//! yet is extended by pending events, in every order, up to that event; those in which it can't take effect are dropped. No configuration left: there
//! is no linearization. The search is exact, and its cost is the number of configurations, which has a limit.
//!
//! Three reductions lose nothing. Events that change no key take effect as soon as they can. Before an event that ends only those pending events are
//! tried that share a key with it, or with one of these: all others commute with it. And states on which all configurations agree are kept once.
use crate::claims::{Claim, Event, State, ABSENT};
use std::collections::{BTreeMap, BTreeSet, HashSet};

#[derive(Debug, PartialEq, Eq)]
pub enum Verdict {
    Linearizable,
    /// An event that can't have taken effect, a key, and the states that the key may have had, none of which the event claims.
    Stuck(usize, u32, Vec<State>),
    /// There are more configurations than the limit, or more than 64 events at once.
    Undecided,
}

/// The states of the keys that are not absent.
type States = BTreeMap<u32, State>;

/// One possible past: the states of keys where they differ from the common ones, and a bit for each pending event that took effect.
#[derive(Clone, PartialEq, Eq, Hash)]
struct Configuration {
    differences: Vec<(u32, State)>,
    done: u64,
}

fn state_of(states: &States, key: u32) -> State {
    states.get(&key).copied().unwrap_or(ABSENT)
}

/// Where a key's state stands in a list, or would stand.
fn place(list: &[(u32, State)], key: u32) -> Result<usize, usize> {
    list.binary_search_by_key(&key, |pair| pair.0)
}

impl Configuration {
    fn is_done(&self, slot: usize) -> bool {
        self.done >> slot & 1 == 1
    }

    fn state(&self, common: &States, key: u32) -> State {
        place(&self.differences, key).map_or_else(|_| state_of(common, key), |at| self.differences[at].1)
    }

    fn set(&mut self, common: &States, key: u32, state: State) {
        let is_common = state_of(common, key) == state;
        match place(&self.differences, key) {
            Ok(at) if is_common => drop(self.differences.remove(at)),
            Ok(at) => self.differences[at].1 = state,
            Err(at) if !is_common => self.differences.insert(at, (key, state)),
            Err(_) => {}
        }
    }

    fn fulfils(&self, common: &States, claim: &Claim) -> bool {
        match claim {
            Claim::Key { key, before, .. } => self.state(common, *key) == *before,
            Claim::Page { first, past, listed } => {
                let is_listed = |key: &u32| place(listed, *key).is_ok();
                let is_inside = |key: &u32| first <= key && key < past;
                listed.iter().all(|(key, state)| self.state(common, *key) == *state)
                    && common.range(first..past).all(|(key, _)| is_listed(key) || self.state(common, *key) == ABSENT)
                    && self.differences.iter().all(|(key, state)| *state == ABSENT || !is_inside(key) || is_listed(key))
            }
        }
    }
}

struct Search<'a> {
    events: &'a [Event],
    limit: usize,
    /// The states of the keys in all configurations, but for their differences.
    common: States,
    configurations: Vec<Configuration>,
    /// The pending events, each in a slot of its own while it is pending.
    pending: Vec<Option<usize>>,
}

impl Search<'_> {
    fn claim(&self, slot: usize) -> Option<&Claim> {
        self.pending[slot].map(|event| &self.events[event].claim)
    }

    fn start(&mut self, event: usize) -> Result<(), Verdict> {
        let slot = self.pending.iter().position(Option::is_none).ok_or(Verdict::Undecided)?;
        self.pending[slot] = Some(event);
        let claim = &self.events[event].claim;
        if claim.reads() {
            for configuration in &mut self.configurations {
                if configuration.fulfils(&self.common, claim) {
                    configuration.done |= 1 << slot;
                }
            }
        }
        Ok(())
    }

    /// The slots of the pending events that share a key with the one in a slot, or with one of these; it is the first.
    fn related(&self, slot: usize) -> Vec<usize> {
        let mut related = vec![slot];
        let mut at = 0;
        while let Some(claim) = related.get(at).and_then(|slot| self.claim(*slot)) {
            let (first, past) = claim.range();
            let shares = |other: &Claim| other.range().0 < past && first < other.range().1;
            let more: Vec<usize> = (0..self.pending.len()).filter(|slot| !related.contains(slot) && self.claim(*slot).is_some_and(shares)).collect();
            related.extend(more);
            at += 1;
        }
        related
    }

    /// What becomes of a configuration where the event in a slot takes effect next; none where it can't.
    fn after(&self, configuration: &Configuration, slot: usize, reads: &[usize]) -> Option<Configuration> {
        let claim = self.claim(slot)?;
        let &Claim::Key { key, after, .. } = claim else { return None };
        if configuration.is_done(slot) || !configuration.fulfils(&self.common, claim) {
            return None;
        }
        let mut next = configuration.clone();
        next.done |= 1 << slot;
        next.set(&self.common, key, after);
        for read in reads {
            if !next.is_done(*read) && self.claim(*read).is_some_and(|claim| next.fulfils(&self.common, claim)) {
                next.done |= 1 << read;
            }
        }
        Some(next)
    }

    /// Keeps the configurations in which an event can have taken effect before its end.
    fn end(&mut self, event: usize) -> Result<(), Verdict> {
        let slot = self.pending.iter().position(|pending| *pending == Some(event)).expect("it started");
        let (reads, updates): (Vec<usize>, Vec<usize>) = self.related(slot).into_iter().partition(|slot| self.claim(*slot).is_some_and(Claim::reads));
        let mut seen: HashSet<Configuration> = self.configurations.iter().cloned().collect();
        let mut open: Vec<Configuration> = seen.iter().cloned().collect();
        let mut kept: HashSet<Configuration> = HashSet::new();
        while let Some(mut configuration) = open.pop() {
            if configuration.is_done(slot) {
                configuration.done &= !(1 << slot);
                kept.insert(configuration);
                continue;
            }
            for next in updates.iter().filter_map(|update| self.after(&configuration, *update, &reads)) {
                if seen.insert(next.clone()) {
                    open.push(next);
                }
            }
            if seen.len() > self.limit {
                return Err(Verdict::Undecided);
            }
        }
        if kept.is_empty() {
            return Err(self.stuck(event, &seen));
        }
        self.pending[slot] = None;
        self.configurations = kept.into_iter().collect();
        self.keep_agreement_once();
        Ok(())
    }

    /// Names the event, and the first of its keys whose state it claims wrongly in all configurations.
    fn stuck(&self, event: usize, seen: &HashSet<Configuration>) -> Verdict {
        let claim = &self.events[event].claim;
        let is_wrong = |(key, state): &(u32, State)| seen.iter().all(|configuration| configuration.state(&self.common, *key) != *state);
        let key = claim.states().into_iter().find(is_wrong).map_or(claim.range().0, |found| found.0);
        let states: BTreeSet<State> = seen.iter().map(|configuration| configuration.state(&self.common, key)).collect();
        Verdict::Stuck(event, key, states.into_iter().collect())
    }

    /// Moves the differences that all configurations share to the common states.
    fn keep_agreement_once(&mut self) {
        let mut counts: BTreeMap<(u32, State), usize> = BTreeMap::new();
        for difference in self.configurations.iter().flat_map(|configuration| &configuration.differences) {
            *counts.entry(*difference).or_default() += 1;
        }
        counts.retain(|_, count| *count == self.configurations.len());
        for (key, state) in counts.into_keys() {
            if state == ABSENT {
                self.common.remove(&key);
            } else {
                self.common.insert(key, state);
            }
            for configuration in &mut self.configurations {
                configuration.differences.retain(|difference| difference.0 != key);
            }
        }
    }
}

/// Decides about events on keys that are all absent at first, with at most `limit` configurations.
pub fn linearize(events: &[Event], limit: usize) -> Verdict {
    let mut moments: Vec<(u64, bool, usize)> = Vec::with_capacity(2 * events.len());
    for (event, Event { start, end, .. }) in events.iter().enumerate() {
        moments.push((*start, false, event));
        moments.push((*end, true, event));
    }
    moments.sort_unstable();
    let first = Configuration { differences: Vec::new(), done: 0 };
    let mut search = Search { events, limit, common: States::new(), configurations: vec![first], pending: vec![None; 64] };
    for (_, ends, event) in moments {
        if let Err(verdict) = if ends { search.end(event) } else { search.start(event) } {
            return verdict;
        }
    }
    Verdict::Linearizable
}
