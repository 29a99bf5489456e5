//! Walks in both directions, the neighbours of a key, additions, deletions by value and counts, against a `BTreeMap`.
use bwtree::{keys, Add, DeleteIf, Error, Limits, Pair, Result, Seat, Tree};
use std::collections::BTreeMap;

type Map = BTreeMap<Vec<u8>, Vec<u8>>;

struct Draws(u64);

impl Draws {
    fn below(&mut self, count: u64) -> u64 {
        self.0 = self.0.wrapping_add(0x9e3779b97f4a7c15);
        let z = (self.0 ^ self.0 >> 30).wrapping_mul(0xbf58476d1ce4e5b9);
        (z ^ z >> 27).wrapping_mul(0x94d049bb133111eb).wrapping_shr(20) % count
    }

    /// Few different bytes, the least and the greatest among them; one key in eight is long.
    fn key(&mut self) -> Vec<u8> {
        let start = if self.below(8) == 0 { vec![255; 60] } else { Vec::new() };
        let count = if start.is_empty() { self.below(6) } else { self.below(5) };
        start.into_iter().chain((0..count).map(|_| [0, 1, b'a', 254, 255][self.below(5) as usize])).collect()
    }
}

#[test]
fn calls_are_answered() {
    let tree = Tree::for_keys(2, 100).unwrap();
    let (mut seat, mut other) = (tree.seat().unwrap(), tree.seat().unwrap());
    assert_eq!(seat.replace(b"a", b"x"), Ok(None));
    assert_eq!(seat.delete_if(b"a", b"x"), Ok(DeleteIf::Absent));
    assert_eq!((seat.insert(b"a", b"x"), tree.len(), tree.is_empty()), (Ok(None), 1, false));
    assert_eq!(other.replace(b"a", b"y"), Ok(Some(b"x".to_vec())));
    assert_eq!(other.delete_if(b"a", b"x"), Ok(DeleteIf::Differs(b"y".to_vec())));
    assert_eq!((seat.delete_if(b"a", b"y"), tree.len()), (Ok(DeleteIf::Deleted), 0));
    assert_eq!((seat.add(b"n", 5), tree.len()), (Ok(Add::Set), 1));
    assert_eq!(other.add(b"n", u64::MAX), Ok(Add::Added(5)));
    assert_eq!(seat.get(b"n"), Ok(Some(4u64.to_be_bytes().to_vec())));
    assert_eq!(seat.upsert(b"n", b"1234567"), Ok(Some(keys::of(4u64))));
    assert_eq!(seat.add(b"n", 1), Ok(Add::Differs(b"1234567".to_vec())));
    let long = [0; 65];
    assert_eq!(
        (seat.add(&long, 1), seat.delete_if(b"n", &long), seat.replace(b"b", &long)),
        (Err(Error::TooLong), Err(Error::TooLong), Err(Error::TooLong))
    );
    for found in [seat.floor(&long), seat.lower(&long), seat.ceiling(&long), seat.higher(&long)] {
        assert_eq!(found, Err(Error::TooLong));
    }
    assert_eq!(seat.prefix(&long).rev().collect::<Vec<_>>(), [Err(Error::TooLong)]);
    assert_eq!(seat.range(long.as_slice()..).collect::<Vec<_>>(), [Err(Error::TooLong)]);
    assert_eq!(seat.range(..=long.as_slice()).next_back(), Some(Err(Error::TooLong)));
    assert_eq!(seat.last(), Ok(Some((b"n".to_vec(), b"1234567".to_vec()))));
}

fn is_shown<'a>(pairs: impl DoubleEndedIterator<Item = Result<Pair>>, is_back: bool, wanted: impl Iterator<Item = (&'a Vec<u8>, &'a Vec<u8>)>) {
    let found: Result<Vec<_>> = if is_back { pairs.rev().collect() } else { pairs.collect() };
    let mut wanted: Vec<_> = wanted.map(|(key, value)| (key.clone(), value.clone())).collect();
    if is_back {
        wanted.reverse();
    }
    assert_eq!(found, Ok(wanted));
}

fn ranges_are_shown(seat: &mut Seat<'_>, map: &Map, one: &[u8], other: &[u8]) {
    for is_back in [false, true] {
        is_shown(seat.pairs_from(one), is_back, map.range(one.to_vec()..));
        is_shown(seat.range(..one), is_back, map.range(..one.to_vec()));
        is_shown(seat.range(..=one), is_back, map.range(..=one.to_vec()));
        is_shown(seat.prefix(one), is_back, map.iter().filter(|(key, _)| key.starts_with(one)));
        is_shown(seat.range(one..other), is_back, map.iter().filter(|(key, _)| one <= key.as_slice() && key.as_slice() < other));
        let after = (std::ops::Bound::Excluded(one), std::ops::Bound::Included(other));
        is_shown(seat.range::<&[u8]>(after), is_back, map.iter().filter(|(key, _)| one < key.as_slice() && key.as_slice() <= other));
    }
}

/// Both ends of a walk, in drawn turns, show each pair once.
fn ends_meet(seat: &mut Seat<'_>, map: &Map, draws: &mut Draws) {
    let (mut front, mut back) = (Vec::new(), Vec::new());
    let mut pairs = seat.pairs();
    loop {
        let is_back = draws.below(2) == 0;
        let Some(pair) = (if is_back { pairs.next_back() } else { pairs.next() }) else { break };
        if is_back { &mut back } else { &mut front }.push(pair.unwrap());
    }
    assert!(pairs.next().is_none() && pairs.next_back().is_none());
    front.extend(back.into_iter().rev());
    assert!(front.iter().map(|(key, value)| (key, value)).eq(map.iter()));
}

#[test]
fn walks_are_as_of_a_map() {
    let (mut draws, mut map) = (Draws(1), Map::new());
    let tree = Tree::for_keys(1, 1_000).unwrap();
    let mut seat = tree.seat().unwrap();
    assert_eq!((seat.first(), seat.last(), seat.floor(b"a"), seat.lower(b"")), (Ok(None), Ok(None), Ok(None), Ok(None)));
    for i in 0..600u64 {
        let key = draws.key();
        assert_eq!(seat.upsert(&key, &i.to_be_bytes()), Ok(map.insert(key, i.to_be_bytes().to_vec())));
    }
    assert_eq!(tree.len(), map.len());
    let owned = |pair: Option<(&Vec<u8>, &Vec<u8>)>| Ok(pair.map(|(key, value)| (key.clone(), value.clone())));
    assert_eq!((seat.first(), seat.last()), (owned(map.first_key_value()), owned(map.last_key_value())));
    for _ in 0..150 {
        let (one, other) = (draws.key(), draws.key());
        let above = (std::ops::Bound::Excluded(one.clone()), std::ops::Bound::Unbounded);
        assert_eq!(seat.floor(&one), owned(map.range(..=one.clone()).next_back()));
        assert_eq!(seat.lower(&one), owned(map.range(..one.clone()).next_back()));
        assert_eq!(seat.ceiling(&one), owned(map.range(one.clone()..).next()));
        assert_eq!(seat.higher(&one), owned(map.range(above).next()));
        ranges_are_shown(&mut seat, &map, &one, &other);
    }
    for _ in 0..20 {
        ends_meet(&mut seat, &map, &mut draws);
    }
}

/// A write is told `Full` while another thread stands still inside an operation: it is made again until that thread goes on.
fn again<T>(mut call: impl FnMut() -> Result<T>) -> T {
    loop {
        match call() {
            Err(Error::Full) => std::thread::yield_now(),
            told => return told.unwrap(),
        }
    }
}

#[test]
fn sums_and_counts_are_exact_at_rest() {
    let tree = Tree::for_keys(5, 2_000).unwrap();
    std::thread::scope(|scope| {
        for t in 0..4u64 {
            let tree = &tree;
            scope.spawn(move || {
                let (mut seat, mut draws) = (tree.seat().unwrap(), Draws(t));
                for i in 0..1_000 {
                    again(|| seat.add(b"sum", i));
                    again(|| seat.insert(&keys::of((t, draws.below(90))), b"x"));
                    let key = keys::of((t, draws.below(90)));
                    again(|| seat.delete_if(&key, b"x"));
                    if i % 50 == 0 {
                        let falling: Vec<_> = seat.pairs().rev().map(|pair| pair.unwrap().0).collect();
                        assert!(falling.windows(2).all(|two| two[0] > two[1]));
                    }
                }
            });
        }
    });
    let mut seat = tree.seat().unwrap();
    assert_eq!(seat.get(b"sum"), Ok(Some(keys::of(4 * 999 * 1_000 / 2u64))));
    assert_eq!(tree.len(), seat.pairs().rev().count());
    let given = Tree::open_from(Limits { actors: 1, pages: 64, records: 256, large: false, widths: None }, [(b"a", b"x"), (b"b", b"y")]).unwrap();
    assert_eq!((given.seat().unwrap().delete(b"a"), given.len()), (Ok(Some(b"x".to_vec())), 1));
}

#[test]
fn seats_are_walked_by_loops() {
    let tree = std::sync::Arc::new(Tree::for_keys(2, 100).unwrap());
    let mut seat = Tree::seat_of(&tree).unwrap();
    let kept = std::sync::Arc::downgrade(&tree);
    drop(tree);
    let thread = std::thread::spawn(move || {
        assert_eq!(
            (seat.upsert(b"b", b"y"), seat.upsert(b"a", b"x"), seat.contains_key(b"a"), seat.contains_key(b"c")),
            (Ok(None), Ok(None), Ok(true), Ok(false))
        );
        let mut keys = Vec::new();
        for pair in &mut seat {
            keys.push(pair.unwrap().0);
        }
        assert_eq!(format!("{:?}", seat.pairs()), "Pairs { from: [], below: None, .. }");
        keys
    });
    assert_eq!(thread.join().unwrap(), [b"a", b"b"]);
    assert!(kept.upgrade().is_none());
}
