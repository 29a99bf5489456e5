//! The verdict on a history, and its reason.
use crate::claims::{claims, Claims, Event, State, ABSENT};
use crate::history::{hex, History};
use crate::linearize::{linearize, Verdict};

#[derive(Debug, PartialEq, Eq)]
pub enum Judgement {
    Linearizable,
    /// No sequential history of an ordered map has these replies in this order of time; with what shows it.
    Refused(String),
    /// The search went beyond its limit.
    Undecided(String),
}

/// The most configurations that the search keeps: some hundred MB.
const LIMIT: usize = 400_000;
/// How many calls are shown with a refusal.
const SHOWN: usize = 30;

fn name(claims: &Claims, state: &State) -> String {
    if *state == ABSENT {
        "absent".into()
    } else {
        hex(&claims.values[*state as usize])
    }
}

fn describe(history: &History, event: &Event) -> String {
    event.call.map_or("the listing".into(), |place| format!("line {}: {}", history.calls[place].line, history.calls[place]))
}

/// Why an event can't have taken effect: itself, the states that its key may have had, and the calls that overlap it, or set one of these states.
fn reason(history: &History, claims: &Claims, events: &[Event], stuck: usize, key: u32, states: &[State]) -> String {
    let event = &events[stuck];
    let had: Vec<String> = states.iter().map(|state| name(claims, state)).collect();
    let mut text = format!("{}\n    the key {} was then: {}", describe(history, event), hex(&claims.keys[key as usize]), had.join(" or "));
    let overlaps = |other: &&Event| other.call.is_some() && other.call != event.call && other.start < event.end && event.start < other.end;
    for other in events.iter().filter(overlaps).take(SHOWN) {
        text.push_str(&format!("\n    beside it, {}", describe(history, other)));
    }
    text
}

fn judged(history: &History, claims: &Claims, events: &[Event]) -> Result<(), Judgement> {
    match linearize(events, LIMIT) {
        Verdict::Linearizable => Ok(()),
        Verdict::Stuck(stuck, key, states) => Err(Judgement::Refused(reason(history, claims, events, stuck, key, &states))),
        Verdict::Undecided => Err(Judgement::Undecided("too many configurations".into())),
    }
}

/// Judges each key by itself, then all of them together where calls speak of several at once.
///
/// By Herlihy and Wing's locality, calls on single keys are linearizable where those on each key are. A page speaks of several keys at one moment:
/// judged key by key it is refused rightly, but it may be accepted wrongly, so then all events are judged together.
fn judge_claims(history: &History, claims: &Claims) -> Result<(), Judgement> {
    for events in claims.by_key() {
        judged(history, claims, &events)?;
    }
    if claims.has_pages() {
        judged(history, claims, &claims.events)?;
    }
    Ok(())
}

pub fn judge(history: &History) -> Judgement {
    let claims = match claims(history) {
        Ok(claims) => claims,
        Err(fault) => return Judgement::Refused(fault),
    };
    judge_claims(history, &claims).err().unwrap_or(Judgement::Linearizable)
}

#[cfg(test)]
mod tests {
    use super::*;
    use crate::history::parse;

    fn is_linearizable(calls: &str, listing: &str) -> bool {
        match judge(&parse(&format!("{calls}\nclosed\n{listing}\nend\n")).unwrap()) {
            Judgement::Linearizable => true,
            Judgement::Refused(_) => false,
            Judgement::Undecided(why) => panic!("{why}"),
        }
    }

    #[test]
    fn real_time_counts() {
        let read = |start, end| format!("call 1 {start} {end} get x61 absent");
        let set = "call 0 4 6 insert x61 x01 inserted";
        assert!(is_linearizable(&format!("{set}\n{}", read(1, 2)), "pair x61 x01"));
        assert!(is_linearizable(&format!("{set}\n{}", read(5, 9)), "pair x61 x01"));
        assert!(!is_linearizable(&format!("{set}\n{}", read(7, 8)), "pair x61 x01"));
    }

    #[test]
    fn a_read_is_not_undone() {
        // once the new value is read, nobody reads the old state, though the update is still pending
        let set = "call 0 1 9 insert x61 x01 inserted";
        let (new, old) = ("call 1 2 3 get x61 value x01", "call 2 4 5 get x61 absent");
        assert!(!is_linearizable(&format!("{set}\n{new}\n{old}"), "pair x61 x01"));
        let old = "call 2 2 5 get x61 absent";
        let new = "call 1 3 4 get x61 value x01";
        assert!(is_linearizable(&format!("{set}\n{new}\n{old}"), "pair x61 x01"));
    }

    #[test]
    fn a_page_is_one_moment() {
        // each key by itself had the state that the page shows, but never both at once
        let sets = "call 0 2 3 upsert x61 x01 set\ncall 0 4 5 upsert x62 x02 set";
        let page = |pairs: &str| format!("{sets}\ncall 1 1 6 page x pairs{pairs} end");
        let listing = "pair x61 x01\npair x62 x02";
        for pairs in ["", " x61 x01", " x61 x01 x62 x02"] {
            assert!(is_linearizable(&page(pairs), listing), "{pairs}");
        }
        assert!(!is_linearizable(&page(" x62 x02"), listing));
    }

    #[test]
    fn a_compare_and_set_wins_once() {
        let calls = "call 0 1 2 insert x61 x01 inserted\ncall 0 3 5 swap x61 x01 x02 swapped\ncall 1 4 6 swap x61 x01 x03";
        assert!(is_linearizable(&format!("{calls} differs x02"), "pair x61 x02"));
        assert!(!is_linearizable(&format!("{calls} swapped"), "pair x61 x03"));
    }

    #[test]
    fn the_listing_is_the_last_state() {
        let calls = "call 0 1 2 insert x61 x01 inserted\ncall 1 1 3 delete x61 deleted x01";
        assert!(is_linearizable(calls, ""));
        assert!(!is_linearizable(calls, "pair x61 x01"));
    }

    #[test]
    fn a_full_tree_changes_nothing() {
        let full = "call 0 1 2 upsert x61 x01 full\ncall 0 3 4 get x61";
        assert!(is_linearizable(&format!("{full} absent"), ""));
        assert!(!is_linearizable(&format!("{full} value x01"), "pair x61 x01"));
    }
}
