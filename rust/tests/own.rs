//! Threads' own seats, pairs that are put in from an iterator, and refused memory.
use bwtree::{Error, Limits, Tree};
use std::sync::Arc;
use std::time::Duration;

#[test]
fn a_thread_keeps_its_seat() {
    let tree = Tree::for_keys(2, 100).unwrap();
    tree.with_seat(|seat| seat.set_patience(Duration::from_millis(1)));
    let _lent = tree.seat().unwrap();
    assert!(tree.seat().is_none());
    assert_eq!(tree.with_seat(|seat| seat.upsert(b"a", b"x")), Some(Ok(None)));
    std::thread::scope(|scope| {
        scope.spawn(|| assert_eq!(tree.with_seat(|_| ()), None));
    });
    tree.give_own_seat_back();
    tree.give_own_seat_back();
    for _ in 0..3 {
        std::thread::scope(|scope| {
            // (joined by hand, since a scope may end before its threads have)
            scope.spawn(|| assert_eq!(tree.with_seat(|seat| seat.get(b"a")), Some(Ok(Some(b"x".to_vec()))))).join().unwrap();
        });
    }
    assert!(tree.seat().is_some());
}

#[test]
fn an_inner_call_has_another_seat() {
    let tree = Tree::for_keys(2, 100).unwrap();
    let inner = tree.with_seat(|outer| {
        outer.upsert(b"a", b"x").unwrap();
        assert_eq!(tree.with_seat(|_| tree.with_seat(|_| ())), Some(None));
        tree.with_seat(|inner| inner.get(b"a")).unwrap()
    });
    assert_eq!(inner, Some(Ok(Some(b"x".to_vec()))));
    // one of the two is kept
    assert!(tree.seat().is_some());
    let (one, two) = (tree.seat(), tree.seat());
    assert!(one.is_some() && two.is_none());
}

#[test]
fn a_seat_is_kept_after_a_panic() {
    let tree = Tree::for_keys(1, 100).unwrap();
    let panicked = std::panic::catch_unwind(std::panic::AssertUnwindSafe(|| tree.with_seat(|_| panic!("in the function"))));
    assert!(panicked.is_err());
    assert_eq!(tree.with_seat(|seat| seat.contains_key(b"a")), Some(Ok(false)));
}

#[test]
fn a_tree_goes_while_threads_have_own_seats() {
    for _ in 0..100 {
        let tree = Arc::new(Tree::for_keys(1, 100).unwrap());
        tree.with_seat(|seat| seat.upsert(b"a", b"x")).unwrap().unwrap();
        let tree = Arc::try_unwrap(tree).unwrap();
        assert_eq!(tree.into_pairs().unwrap(), [(b"a".to_vec(), b"x".to_vec())]);
    }
}

#[test]
fn pairs_are_put_in() {
    let limits = Limits { actors: 1, pages: 64, records: 704, large: false, widths: None };
    let tree = Tree::try_from_iter(limits, [("b", "1"), ("a", "2"), ("b", "3")]).unwrap();
    let mut seat = tree.seat().unwrap();
    assert_eq!(seat.pairs().collect::<Vec<_>>(), [Ok((b"a".to_vec(), b"2".to_vec())), Ok((b"b".to_vec(), b"3".to_vec()))]);
    let long = [0; 65];
    assert_eq!(seat.try_extend([(b"c".as_slice(), b"".as_slice()), (&long, b""), (b"d", b"")]), Err(Error::TooLong));
    assert!(seat.contains_key(b"c").unwrap() && !seat.contains_key(b"d").unwrap());
    assert_eq!(Tree::try_from_iter(limits, (0..10_000u32).map(|i| (i.to_be_bytes(), [0; 60]))).err(), Some(Error::Full));
    assert_eq!(Tree::try_from_iter(Limits { pages: 63, ..limits }, [("a", "")]).err(), Some(Error::BadLimits));
}

extern "C" {
    fn getrlimit(resource: i32, limits: *mut [u64; 2]) -> i32;
    fn setrlimit(resource: i32, limits: *const [u64; 2]) -> i32;
}

/// Opens a large tree while the process may have 64 MB more than it has.
#[test]
fn memory_is_refused() {
    const RLIMIT_AS: i32 = 9;
    // (a process of its own, since the limit is for all threads)
    if std::env::var_os("BWTREE_TEST_REFUSES").is_none() {
        let program = std::env::current_exe().unwrap();
        let ran = std::process::Command::new(program).args(["--exact", "memory_is_refused"]).env("BWTREE_TEST_REFUSES", "1").output().unwrap();
        assert!(ran.status.success(), "{}", String::from_utf8_lossy(&ran.stdout));
        return;
    }
    let pages: u64 = std::fs::read_to_string("/proc/self/statm").unwrap().split(' ').next().unwrap().parse().unwrap();
    let mut was = [0; 2];
    // SAFETY: both are as the C library has them on x86-64 Linux, and live as long as the calls.
    let status = unsafe {
        assert_eq!(getrlimit(RLIMIT_AS, &mut was), 0);
        assert_eq!(setrlimit(RLIMIT_AS, &[pages * 4096 + (64 << 20), was[1]]), 0);
        let status = Tree::for_many_keys(1, 1_000_000).err();
        assert_eq!(setrlimit(RLIMIT_AS, &was), 0);
        status
    };
    assert_eq!(status, Some(Error::NoMemory));
}
