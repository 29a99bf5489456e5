//! The checker against a search over all orders, on small histories: most of them made wrong by a changed reply, time, or listing.
use crate::claims::{claims, Claim, Event, State, ABSENT};
use crate::draws::Draws;
use crate::history::{Bytes, History, Operation, Reply};
use crate::judge::{judge, Judgement};
use crate::simulate::{simulate, Plan};

/// The states after an event takes effect; none where its claim does not hold.
fn after(claim: &Claim, states: &[State]) -> Option<Vec<State>> {
    let holds = claim.states().iter().all(|(key, state)| states[*key as usize] == *state);
    let mut next = states.to_vec();
    if let Claim::Key { key, after, .. } = claim {
        next[*key as usize] = *after;
    }
    holds.then_some(next)
}

/// Whether the events that are left have an order in which all claims hold, and none comes after one that began after its end.
fn has_order(events: &[Event], left: &[usize], states: &[State]) -> bool {
    left.is_empty()
        || left.iter().any(|first| {
            let may_be_first = left.iter().all(|other| events[*other].end > events[*first].start);
            let rest: Vec<usize> = left.iter().copied().filter(|other| other != first).collect();
            may_be_first && after(&events[*first].claim, states).is_some_and(|states| has_order(events, &rest, &states))
        })
}

fn value(draws: &mut Draws) -> Bytes {
    vec![0, draws.below(4) as u8]
}

/// Another reply that the operation may have.
fn other_reply(operation: &Operation, reply: &Reply, draws: &mut Draws) -> Reply {
    let value = value(draws);
    let is_other = draws.one_in(2);
    match (operation, reply) {
        (Operation::Get, _) if is_other => Reply::Absent,
        (Operation::Get, _) => Reply::Value(value),
        (Operation::Insert(_), _) if is_other => Reply::Inserted,
        (Operation::Insert(_), _) => Reply::Exists(value),
        (Operation::Upsert(_), _) if is_other => Reply::Set,
        (Operation::Upsert(_), _) => Reply::Replaced(value),
        (Operation::Delete, _) if is_other => Reply::Absent,
        (Operation::Delete, _) => Reply::Deleted(value),
        (Operation::Swap(..), _) if is_other => Reply::Swapped,
        (Operation::Swap(expected, _), _) if value != *expected => Reply::Differs(value),
        (Operation::DeleteIf(expected), _) if is_other => Reply::Deleted(expected.clone()),
        (Operation::DeleteIf(expected), _) if value != *expected => Reply::Differs(value),
        (Operation::DeleteIf(_), _) => Reply::Absent,
        (Operation::Add(_), _) if is_other => Reply::Set,
        (Operation::Add(_), _) => Reply::Differs(value),
        (Operation::Page | Operation::Back, Reply::Page(pairs, next)) => {
            let mut pairs = pairs.clone();
            if let Some(pair) = pairs.pop().filter(|_| is_other) {
                pairs.push((pair.0, value));
            }
            Reply::Page(pairs, next.clone())
        }
        (_, reply) => reply.clone(),
    }
}

/// Changes a reply, the times of two calls, or the listing.
fn alter(history: &mut History, draws: &mut Draws) {
    let (one, other) = (draws.below(history.calls.len()), draws.below(history.calls.len()));
    match draws.below(6) {
        0 => {
            let times = (history.calls[one].start, history.calls[one].end);
            (history.calls[one].start, history.calls[one].end) = (history.calls[other].start, history.calls[other].end);
            (history.calls[other].start, history.calls[other].end) = times;
        }
        1 => drop(history.listing.pop()),
        _ => {
            let call = &mut history.calls[one];
            call.reply = other_reply(&call.operation, &call.reply, draws);
        }
    }
}

#[test]
fn decides_as_a_search_over_all_orders() {
    let mut draws = Draws::new(5);
    let (mut linearizable, mut refused, mut by_key_alone) = (0, 0, 0);
    for _ in 0..20_000 {
        let torn = draws.one_in(2);
        let (pages, keys, least) = if torn { (2, 2, 5) } else { (1, 1 + draws.below(3), 3) };
        let plan = Plan { seats: 2 + draws.below(3), calls: least + draws.below(5), keys, span: 1 + draws.below(3), pages, torn };
        let mut history = simulate(&plan, &mut draws);
        for _ in 0..draws.below(if torn { 2 } else { 3 }) {
            alter(&mut history, &mut draws);
        }
        let all = claims(&history).expect("its calls are well-formed");
        let order = has_order(&all.events, &(0..all.events.len()).collect::<Vec<_>>(), &vec![ABSENT; all.keys.len()]);
        match judge(&history) {
            Judgement::Linearizable => assert!(order, "{history:#?}"),
            Judgement::Refused(why) => assert!(!order, "{why}\n{history:#?}"),
            Judgement::Undecided(why) => panic!("{why}"),
        }
        let each = all.by_key().iter().all(|events| has_order(events, &(0..events.len()).collect::<Vec<_>>(), &vec![ABSENT; all.keys.len()]));
        linearizable += usize::from(order);
        refused += usize::from(!order);
        by_key_alone += usize::from(each && !order);
    }
    assert!(linearizable > 5_000 && refused > 5_000 && by_key_alone > 20, "{linearizable} {refused} {by_key_alone}");
}
