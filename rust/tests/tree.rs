use bwtree::{CompareAndSet, Error, FullHint, Limits, Pairs, Room, Seat, Tree, Widths};
use std::time::{Duration, Instant};

#[test]
fn calls_are_answered() {
    let tree = Tree::for_keys(2, 100).unwrap();
    let (mut seat, mut other) = (tree.seat().unwrap(), tree.seat().unwrap());
    assert_eq!(seat.get(b"a"), Ok(None));
    assert_eq!(seat.insert(b"a", b"x"), Ok(None));
    assert_eq!(other.insert(b"a", b"y"), Ok(Some(b"x".to_vec())));
    assert_eq!(seat.upsert(b"a", b"z"), Ok(Some(b"x".to_vec())));
    assert_eq!(seat.compare_and_set(b"a", b"x", b"w"), Ok(CompareAndSet::Differs(b"z".to_vec())));
    assert_eq!(seat.compare_and_set(b"a", b"z", b"w"), Ok(CompareAndSet::Set));
    assert_eq!(seat.compare_and_set(b"b", b"z", b"w"), Ok(CompareAndSet::Absent));
    assert_eq!(seat.tidy(b"a"), Ok(()));
    assert_eq!(other.get(b"a"), Ok(Some(b"w".to_vec())));
    assert_eq!(seat.delete(b"a"), Ok(Some(b"w".to_vec())));
    assert_eq!(seat.delete(b"a"), Ok(None));
    assert_eq!(seat.upsert(b"", b""), Ok(None));
    assert_eq!(seat.get(b""), Ok(Some(Vec::new())));
    assert!(seat.room().free_records > 0);
}

#[test]
fn lengths_are_tested() {
    let tree = Tree::for_keys(1, 100).unwrap();
    let mut seat = tree.seat().unwrap();
    assert_eq!(seat.get(&[0; 65]), Err(Error::TooLong));
    assert_eq!(seat.upsert(&[0; 64], &[1; 65]), Err(Error::TooLong));
    assert_eq!(seat.upsert(&[0; 64], &[1; 64]), Ok(None));
    assert_eq!(seat.pairs_from(&[0; 65]).collect::<Vec<_>>(), [Err(Error::TooLong)]);
    assert_eq!(seat.pairs_from(&[0; 64]).collect::<Vec<_>>(), [Ok((vec![0; 64], vec![1; 64]))]);
}

#[test]
fn limits_are_tested() {
    assert_eq!(Limits::for_keys(17, 1), Err(Error::BadLimits));
    assert_eq!(Limits::for_many_keys(64, 1), Err(Error::BadLimits));
    let limits = Limits::for_pairs(1, 1000, 16, 8).unwrap();
    let widths = limits.widths.unwrap();
    assert!(limits.large && widths.page_words == 88 && Tree::open(limits).unwrap().seat().unwrap().insert(&[b'k'; 64], &[b'v'; 64]).is_ok());
    for wrong in [Limits { large: false, ..limits }, Limits { widths: Some(Widths { narrow_words: 7, ..widths }), ..limits }] {
        assert_eq!(Tree::open(wrong).err(), Some(Error::BadLimits));
    }
    assert_eq!(Tree::open(Limits { actors: 1, pages: 63, records: 64, large: false, widths: None }).err(), Some(Error::BadLimits));
    assert_eq!(Tree::open(Limits { actors: 0, pages: 64, records: 64, large: false, widths: None }).err(), Some(Error::BadLimits));
    assert_eq!(Tree::open(Limits { actors: u64::MAX, pages: 64, records: 64, large: false, widths: None }).err(), Some(Error::BadLimits));
}

#[test]
fn a_large_tree_takes_more_keys() {
    assert_eq!(Limits::for_keys(1, 20_000), Err(Error::BadLimits));
    let tree = Tree::for_many_keys(1, 20_000).unwrap();
    let mut seat = tree.seat().unwrap();
    for i in 0..20_000u32 {
        assert_eq!(seat.insert(&i.to_be_bytes(), b"x"), Ok(None));
    }
    assert_eq!(seat.get(&7u32.to_be_bytes()), Ok(Some(b"x".to_vec())));
}

#[test]
fn a_large_tree_lends_63_seats() {
    let tree = Tree::for_many_keys(63, 100).unwrap();
    let mut seats: Vec<_> = (0..63).map(|_| tree.seat().unwrap()).collect();
    assert!(tree.seat().is_none());
    for (seat, key) in seats.iter_mut().zip(0u8..) {
        assert_eq!(seat.insert(&[key], b"x"), Ok(None));
    }
    drop(seats);
    assert_eq!((tree.len(), tree.seat().unwrap().get(&[62])), (63, Ok(Some(b"x".to_vec()))));
}

#[test]
fn trees_are_opened_with_pairs() {
    let limits = Limits { actors: 2, pages: 64, records: 256, large: false, widths: None };
    let pairs: Vec<(Vec<u8>, Vec<u8>)> = (0..60u8).map(|i| (vec![i], vec![i, i])).collect();
    let tree = Tree::open_from(limits, pairs.iter().map(|(key, value)| (key, value))).unwrap();
    assert_eq!(tree.seat().unwrap().pairs_from(b"").collect::<Result<Vec<_>, _>>(), Ok(pairs.clone()));
    assert_eq!(Tree::open_from(limits, pairs.iter().rev().map(|(key, value)| (key, value))).err(), Some(Error::BadOrder));
    assert_eq!(Tree::open_from(limits, [(b"a", [0; 65])]).err(), Some(Error::TooLong));
    let many = (0..4000u32).map(|i| (i.to_be_bytes(), b""));
    assert_eq!(Tree::open_from(Limits { records: 64, ..limits }, many).err(), Some(Error::Full));
    assert_eq!(Tree::open_from(limits, [(b"", b""); 0]).unwrap().seat().unwrap().get(b""), Ok(None));
}

#[test]
fn trees_are_closed_with_their_pairs() {
    let tree = Tree::for_keys(2, 500).unwrap();
    let mut seat = tree.seat().unwrap();
    for i in (0..400u32).rev() {
        assert_eq!(seat.insert(&i.to_be_bytes(), &[i as u8]), Ok(None));
    }
    assert_eq!(seat.delete(&7u32.to_be_bytes()), Ok(Some(vec![7])));
    drop(seat);
    let pairs = tree.into_pairs().unwrap();
    let wanted: Vec<_> = (0..400u32).filter(|&i| i != 7).map(|i| (i.to_be_bytes().to_vec(), vec![i as u8])).collect();
    assert_eq!(pairs, wanted);
    let tree = Tree::open_from(Limits::for_keys(1, 500).unwrap(), pairs).unwrap();
    assert_eq!(tree.into_pairs().unwrap(), wanted);
    assert_eq!(Tree::for_keys(1, 1).unwrap().into_pairs().unwrap(), []);
}

#[test]
fn seats_are_lent() {
    let tree = Tree::for_keys(2, 100).unwrap();
    let (one, other) = (tree.seat(), tree.seat());
    assert!(one.is_some() && other.is_some() && tree.seat().is_none());
    drop(one);
    assert!(tree.seat().is_some());
}

#[test]
fn a_small_tree_is_full() {
    let tree = Tree::open(Limits { actors: 1, pages: 64, records: 64, large: false, widths: None }).unwrap();
    let mut seat = tree.seat().unwrap();
    let error = (0..100_000u32).find_map(|i| seat.insert(&i.to_be_bytes(), b"").err());
    assert_eq!(error, Some(Error::Full));
    assert!(seat.pairs_from(b"").all(|pair| pair.is_ok()));
}

/// A write is told `Full` while another thread stands still inside an operation: it is made again until that thread goes on.
fn upsert(seat: &mut Seat<'_>, key: &[u8], value: &[u8]) -> Option<Vec<u8>> {
    loop {
        match seat.upsert(key, value) {
            Err(Error::Full) => std::thread::yield_now(),
            told => return told.unwrap(),
        }
    }
}

#[test]
fn threads_have_keys_of_their_own() {
    let tree = Tree::for_keys(4, 4 * 500).unwrap();
    std::thread::scope(|scope| {
        for t in 0..4u8 {
            let tree = &tree;
            scope.spawn(move || {
                let mut seat = tree.seat().unwrap();
                for i in 0..2_500u32 {
                    let key = [&[t][..], &(i % 500).to_be_bytes()].concat();
                    let old = upsert(&mut seat, &key, &i.to_be_bytes());
                    assert_eq!(old, i.checked_sub(500).map(|was| was.to_be_bytes().to_vec()));
                }
            });
        }
    });
    let mut seat = tree.seat().unwrap();
    let pairs: Vec<_> = seat.pairs_from(b"").map(|pair| pair.unwrap()).collect();
    assert_eq!(pairs.len(), 2_000);
    assert!(pairs.windows(2).all(|two| two[0].0 < two[1].0));
}

fn is_shared<T: Send + Sync>() {}
fn is_sent<T: Send>() {}

/// A type that is `Sync` has this in two manners, so that the test, which names neither, would not compile.
trait IsNotShared<Kind> {
    fn told() {}
}
struct Shared;
impl<T: ?Sized> IsNotShared<()> for T {}
impl<T: ?Sized + Sync> IsNotShared<Shared> for T {}

#[test]
fn types_cross_threads() {
    is_shared::<Tree>();
    is_sent::<Seat<'static>>();
    is_sent::<Pairs<'static, 'static>>();
    <Seat<'static> as IsNotShared<_>>::told();
}

/// A write waits as long as its seat's patience lasts: in vain where the tree is full for good.
#[test]
fn writes_wait_while_the_tree_is_full() {
    let tree = Tree::open(Limits { actors: 1, pages: 64, records: 704, large: false, widths: None }).unwrap();
    let mut seat = tree.seat().unwrap();
    assert_eq!(seat.full_hint(), FullHint::Passed);
    let mut keys = (0..100_000u32).map(|i| i.wrapping_mul(2_654_435_761).to_be_bytes());
    let key = keys.find(|key| seat.insert(key, b"") == Err(Error::Full)).unwrap();
    seat.set_patience(Duration::from_millis(30));
    let begin = Instant::now();
    assert_eq!(seat.insert(&key, b""), Err(Error::Full));
    assert!(begin.elapsed() >= Duration::from_millis(30));
    assert_eq!(seat.full_hint(), FullHint::ForGood);
}

#[test]
fn hints_are_of_limits_and_room() {
    let hint = |actors, records, large, free_pages, free_records| {
        FullHint::of(&Limits { actors, pages: 64, records, large, widths: None }, &Room { free_pages, free_records })
    };
    assert_eq!(hint(1, 704, false, 1, 1), FullHint::Passed);
    assert_eq!(hint(1, 704, false, 0, 1), FullHint::ForGood);
    assert_eq!(hint(1, 704, false, 1, 0), FullHint::ForNow);
    assert_eq!(hint(1, 640, false, 1, 0), FullHint::ForGood);
    assert_eq!(hint(2, 768, false, 60, 0), FullHint::ForGood);
    assert_eq!(hint(1, 448, true, 1, 0), FullHint::ForNow);
    assert_eq!(hint(1, 384, true, 1, 0), FullHint::ForGood);
}

/// Of three widths, as many records as are narrower than 512 words tell nothing of the others.
#[test]
fn hints_are_of_three_widths() {
    let hint = |records, wide_from, free_pages, free_records| {
        let widths = Some(Widths { narrow_records: wide_from / 2, wide_from, narrow_words: 8, page_words: 56 });
        FullHint::of(&Limits { actors: 1, pages: 64, records, large: true, widths }, &Room { free_pages, free_records })
    };
    assert_eq!(hint(576, 512, 1, 513), FullHint::Passed);
    assert_eq!(hint(576, 512, 1, 512), FullHint::Unknown);
    assert_eq!(hint(576, 512, 1, 0), FullHint::Unknown);
    assert_eq!(hint(576, 512, 0, 513), FullHint::ForGood);
    assert_eq!(hint(384, 320, 1, 0), FullHint::ForGood);
    assert_eq!(hint(384, 320, 1, 1), FullHint::Unknown);
}

/// In a tree for short pairs that is filled with long ones no record of 512 words is free any more, though many narrower ones are.
#[test]
fn full_trees_of_three_widths_have_narrow_records() {
    let tree = Tree::for_pairs(1, 2000, 1, 1).unwrap();
    let mut seat = tree.seat().unwrap();
    assert_eq!(seat.full_hint(), FullHint::Passed);
    let mut key = [0; 64];
    let full = (0..2000u32).find(|i| {
        key[..4].copy_from_slice(&i.wrapping_mul(2_654_435_761).to_be_bytes());
        seat.insert(&key, &key) == Err(Error::Full)
    });
    let room = seat.room();
    assert!(full.is_some() && room.free_pages > 0 && room.free_records > 0);
    assert_eq!(seat.full_hint(), FullHint::Unknown);
}
