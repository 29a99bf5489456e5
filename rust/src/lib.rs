//! An ordered map from byte strings to byte strings, in memory, for many threads, without locks: a safe crate over libbwtree.
//!
//! A [`Tree`] is shared by threads, and lends its seats, 1 to 16 of them, a large one 1 to 63. A [`Seat`] is where calls are made: one thread
//! at a time uses it, and gives it back by dropping it. Keys and values have at most 64 bytes.
//!
//! ```
//! let tree = bwtree::Tree::for_keys(2, 100)?;
//! std::thread::scope(|scope| {
//!     scope.spawn(|| tree.seat().expect("one is free").upsert(b"Bern", b"Switzerland"));
//! });
//! let mut seat = tree.seat().expect("one is free");
//! assert_eq!(seat.get(b"Bern")?, Some(b"Switzerland".to_vec()));
//! # Ok::<(), bwtree::Error>(())
//! ```
//!
//! The tree is linearizable (Herlihy and Wing), proved over all states of the tree: all calls form one sequential history of an ordered map, in which a
//! call that has returned precedes a call that begins afterwards, whatever threads and seats make the two. In a program's own proof, order between two
//! seats comes from meeting or a note, because the language has no clock.
//!
//! A thread that calls needs 512 KB of stack, which Rust's own threads have.
//!
//! A call that returns an [`Error`] changed no key. [`FromIterator`] and [`Extend`] are not implemented, since they can return none: see
//! [`Tree::try_from_iter`] and [`Seat::try_extend`].
#![warn(missing_docs, clippy::missing_errors_doc, clippy::undocumented_unsafe_blocks)]
mod ffi;
pub mod keys;
mod own;
mod seats;
mod waits;
mod walks;

pub use seats::Seat;
pub use waits::FullHint;
pub use walks::{Pair, Pairs};

use bwtree_sys as _;
use ffi::*;
use seats::Share;
use std::fmt;
use std::sync::atomic::{AtomicI64, AtomicU64, Ordering::Relaxed, Ordering::SeqCst};
use std::sync::Arc;

/// How many bytes a key or a value may have.
pub const MAX_LENGTH: usize = 64;

/// How many steps an operation is resumed for at a time.
const STEPS: u32 = 1 << 16;

/// Why nothing was done.
#[non_exhaustive]
#[derive(Clone, Copy, Debug, PartialEq, Eq)]
pub enum Error {
    /// A key or a value has more than 64 bytes.
    TooLong,
    /// Nothing was free for a change, and no key was changed.
    Full,
    /// A limit is outside its range.
    BadLimits,
    /// A growth of memory was refused.
    NoMemory,
    /// The keys of pairs don't ascend.
    BadOrder,
    /// The linked library is of a version that doesn't go with this crate's.
    BadVersion,
}

impl fmt::Display for Error {
    fn fmt(&self, f: &mut fmt::Formatter<'_>) -> fmt::Result {
        f.write_str(match self {
            Error::TooLong => "a key or a value is longer than 64 bytes",
            Error::Full => "the tree is full",
            Error::BadLimits => "a limit is outside its range",
            Error::NoMemory => "no memory",
            Error::BadOrder => "the keys don't ascend",
            Error::BadVersion => concat!("libbwtree is of another version than the crate bwtree, which is ", env!("CARGO_PKG_VERSION")),
        })
    }
}

impl std::error::Error for Error {}

/// What was done, or why nothing was.
pub type Result<T> = std::result::Result<T, Error>;

/// What a compare-and-set came to.
#[derive(Clone, Debug, PartialEq, Eq)]
pub enum CompareAndSet {
    /// The key had the expected value, and has the new one.
    Set,
    /// The key has this value, and keeps it.
    Differs(Vec<u8>),
    /// The key has no value.
    Absent,
}

/// What a deletion by value came to.
#[derive(Clone, Debug, PartialEq, Eq)]
pub enum DeleteIf {
    /// The key had the expected value, and has none.
    Deleted,
    /// The key has this value, and keeps it.
    Differs(Vec<u8>),
    /// The key has no value.
    Absent,
}

/// What an addition came to.
#[derive(Clone, Debug, PartialEq, Eq)]
pub enum Add {
    /// The key had no value, and has the number.
    Set,
    /// The key had this number, and has the sum.
    Added(u64),
    /// The key has this value, which has not eight bytes, and keeps it.
    Differs(Vec<u8>),
}

/// How large a tree is.
#[derive(Clone, Copy, Debug, PartialEq, Eq)]
pub struct Limits {
    /// How many seats: 1 to 16, of a large tree to 63.
    pub actors: u64,
    /// How many pages: 64 to 4,096, of a large tree to 4,194,304, a multiple of 64.
    pub pages: u64,
    /// How many records, of 4,096 bytes each, but with widths: 64 to 16,384, of a large tree to 67,108,864, a multiple of 64.
    pub records: u64,
    /// Whether it is a large tree, whose pages take fewer records.
    pub large: bool,
    /// The widths of a large tree's records, where they have not all the same one.
    pub widths: Option<Widths>,
}

/// Records of three widths: narrow ones for single changes, then those for pages, then the others, of 512 words. A word has 8 bytes.
#[derive(Clone, Copy, Debug, PartialEq, Eq)]
pub struct Widths {
    /// How many are narrow: a multiple of 64.
    pub narrow_records: u64,
    /// The first one of 512 words: a multiple of 64, below `records`.
    pub wide_from: u64,
    /// How many words a narrow one has: 8 at least.
    pub narrow_words: u64,
    /// How many words one for pages has: 24 to 512, and not less than a narrow one.
    pub page_words: u64,
}

impl From<RawLimits> for Limits {
    fn from(raw: RawLimits) -> Limits {
        let RawLimits { actors, pages, records, large, narrow_records, wide_from, narrow_words, page_words, .. } = raw;
        let widths = (large == 2).then_some(Widths { narrow_records, wide_from, narrow_words, page_words });
        Limits { actors, pages, records, large: large > 0, widths }
    }
}

impl Limits {
    /// For so many seats and so many different keys, all counted that the tree ever has.
    ///
    /// ```
    /// use bwtree::{Error, Limits};
    /// assert_eq!(Limits::for_keys(4, 1000)?.actors, 4);
    /// assert_eq!(Limits::for_keys(17, 1000), Err(Error::BadLimits));
    /// # Ok::<(), Error>(())
    /// ```
    ///
    /// # Errors
    ///
    /// [`Error::BadLimits`] of no seats or more than 16, and of more keys than fit: 12,199 for one seat, 11,535 for 4, 9,751 for 16.
    pub fn for_keys(seats: u64, keys: u64) -> Result<Limits> {
        let mut limits = RawLimits::default();
        // SAFETY: `limits` lives as long as the call.
        settled(unsafe { bwtree_raw_limits_for_keys(seats, keys, &mut limits) })?;
        Ok(limits.into())
    }

    /// For a large tree of pairs of any length: up to 27 million keys, in some 500 bytes each, and with several seats in 26 MB more if the keys are few: so 16,384
    /// updates have room while a thread is stopped inside a call.
    ///
    /// ```
    /// assert!(bwtree::Limits::for_many_keys(63, 1_000_000)?.large);
    /// # Ok::<(), bwtree::Error>(())
    /// ```
    ///
    /// # Errors
    ///
    /// [`Error::BadLimits`] of no seats or more than 63, and of too many keys.
    pub fn for_many_keys(seats: u64, keys: u64) -> Result<Limits> {
        let mut limits = RawLimits::default();
        // SAFETY: `limits` lives as long as the call.
        settled(unsafe { bwtree_raw_limits_for_many_keys(seats, keys, &mut limits) })?;
        Ok(limits.into())
    }

    /// For a large tree of pairs whose keys and values mostly have at most so many bytes, of 16 and 8 in some 141 bytes a key, and 7 MB. Longer pairs are taken,
    /// too, as far as there is room.
    ///
    /// ```
    /// use bwtree::{Error, Limits};
    /// assert_eq!(Limits::for_pairs(4, 1_000_000, 16, 8)?.widths.map(|widths| widths.narrow_words), Some(8));
    /// assert_eq!(Limits::for_pairs(4, 1_000_000, 65, 8), Err(Error::BadLimits));
    /// # Ok::<(), Error>(())
    /// ```
    ///
    /// # Errors
    ///
    /// [`Error::BadLimits`] of no seats or more than 63, of too many keys, and of more than 64 bytes.
    pub fn for_pairs(seats: u64, keys: u64, key_bytes: u64, value_bytes: u64) -> Result<Limits> {
        let mut limits = RawLimits::default();
        // SAFETY: `limits` lives as long as the call.
        settled(unsafe { bwtree_raw_limits_for_pairs(seats, keys, key_bytes, value_bytes, &mut limits) })?;
        Ok(limits.into())
    }
}

/// How many pages and records are free, but those that a seat holds back.
#[derive(Clone, Copy, Debug, PartialEq, Eq)]
pub struct Room {
    /// Pages that are free.
    pub free_pages: u64,
    /// Records that are free.
    pub free_records: u64,
}

/// How many more keys a seat has set than deleted, in a cache line of its own.
#[derive(Default)]
#[repr(align(64))]
struct Count(AtomicI64);

/// An ordered map from byte strings to byte strings. It is closed when it is dropped.
pub struct Tree {
    handle: Box<RawTree>,
    /// A bit for each seat that is free. Threads that have own seats share it.
    free: Arc<AtomicU64>,
    counts: Box<[Count]>,
    limits: Limits,
}

// SAFETY: all threads share a handle, by the library's contract. What it points to, the library alone reads.
unsafe impl Send for Tree {}
// SAFETY: as above.
unsafe impl Sync for Tree {}

impl Tree {
    /// An empty tree.
    ///
    /// ```
    /// let tree = bwtree::Tree::open(bwtree::Limits { actors: 2, pages: 64, records: 832, large: false, widths: None })?;
    /// assert!(tree.is_empty());
    /// # Ok::<(), bwtree::Error>(())
    /// ```
    ///
    /// # Errors
    ///
    /// [`Error::BadLimits`] of a limit outside its range; [`Error::NoMemory`]; [`Error::BadVersion`] of a library of another version. No tree is open then.
    pub fn open(limits: Limits) -> Result<Tree> {
        // SAFETY: the limits and the handle live as long as the call, and nobody else has the handle yet.
        Tree::opened(limits, |raw, handle| unsafe { bwtree_raw_open(raw, handle) })
    }

    /// A tree with these pairs, whose keys ascend.
    ///
    /// ```
    /// use bwtree::{Error, Limits, Tree};
    /// let limits = Limits::for_keys(1, 100)?;
    /// assert_eq!(Tree::open_from(limits, [("Bern", "Switzerland"), ("Oslo", "Norway")])?.len(), 2);
    /// assert_eq!(Tree::open_from(limits, [("b", ""), ("a", "")]).err(), Some(Error::BadOrder));
    /// # Ok::<(), Error>(())
    /// ```
    ///
    /// # Errors
    ///
    /// [`Error::Full`] where the pairs don't all fit; [`Error::BadOrder`] where the keys don't ascend; [`Error::TooLong`]; and those of [`Tree::open`]. No
    /// tree is open then.
    pub fn open_from<K: AsRef<[u8]>, V: AsRef<[u8]>>(limits: Limits, pairs: impl IntoIterator<Item = (K, V)>) -> Result<Tree> {
        let raw_pair = |(key, value): (K, V)| Some(RawPair { key: RawBytes::of(key.as_ref())?, value: RawBytes::of(value.as_ref())? });
        let pairs = pairs.into_iter().map(raw_pair).collect::<Option<Vec<_>>>().ok_or(Error::TooLong)?;
        // SAFETY: the limits, the pairs and the handle live as long as the call, and nobody else has the handle yet.
        let tree = Tree::opened(limits, |raw, handle| match unsafe { bwtree_raw_open_from(raw, pairs.as_ptr(), pairs.len(), handle) } {
            SPENT => FULL,
            status => status,
        })?;
        tree.counts[0].0.store(pairs.len() as i64, Relaxed);
        Ok(tree)
    }

    /// A tree with these pairs, in any order: a later pair of a key replaces an earlier one. It is in place of [`FromIterator`], which can return no error.
    ///
    /// ```
    /// use bwtree::{Limits, Tree};
    /// let tree = Tree::try_from_iter(Limits::for_keys(1, 100)?, [("Oslo", "Norway"), ("Bern", "Switzerland")])?;
    /// assert_eq!(tree.len(), 2);
    /// # Ok::<(), bwtree::Error>(())
    /// ```
    ///
    /// # Errors
    ///
    /// [`Error::Full`] where the pairs don't all fit; [`Error::TooLong`]; and those of [`Tree::open`]. No tree is open then.
    pub fn try_from_iter<K: AsRef<[u8]>, V: AsRef<[u8]>>(limits: Limits, pairs: impl IntoIterator<Item = (K, V)>) -> Result<Tree> {
        let tree = Tree::open(limits)?;
        tree.seat().expect("no seat is lent").try_extend(pairs)?;
        Ok(tree)
    }

    fn opened(limits: Limits, open: impl FnOnce(&RawLimits, &mut RawTree) -> u32) -> Result<Tree> {
        let Limits { actors, pages, records, large, widths } = limits;
        let mut raw = RawLimits { actors, pages, records, epoch: 1, large: u64::from(large), ..RawLimits::default() };
        if let Some(Widths { narrow_records, wide_from, narrow_words, page_words }) = widths {
            // widths of a small tree are refused
            raw = RawLimits { large: if large { 2 } else { 3 }, narrow_records, wide_from, narrow_words, page_words, ..raw };
        }
        let mut handle = Box::new(RawTree { held: 0, at: std::ptr::null() });
        settled(if goes_with_this() { open(&raw, &mut handle) } else { BAD_VERSION })?;
        let counts = (0..limits.actors).map(|_| Count::default()).collect();
        Ok(Tree { handle, free: Arc::new(AtomicU64::new((1 << limits.actors) - 1)), counts, limits })
    }

    /// An empty tree with so many seats, for so many different keys, all counted that it ever has.
    ///
    /// ```
    /// assert!(bwtree::Tree::for_keys(4, 1000)?.is_empty());
    /// # Ok::<(), bwtree::Error>(())
    /// ```
    ///
    /// # Errors
    ///
    /// Those of [`Limits::for_keys`] and [`Tree::open`].
    pub fn for_keys(seats: u64, keys: u64) -> Result<Tree> {
        Tree::open(Limits::for_keys(seats, keys)?)
    }

    /// An empty large tree.
    ///
    /// ```
    /// assert!(bwtree::Tree::for_many_keys(63, 1000)?.is_empty());
    /// # Ok::<(), bwtree::Error>(())
    /// ```
    ///
    /// # Errors
    ///
    /// Those of [`Limits::for_many_keys`] and [`Tree::open`].
    pub fn for_many_keys(seats: u64, keys: u64) -> Result<Tree> {
        Tree::open(Limits::for_many_keys(seats, keys)?)
    }

    /// An empty large tree for pairs whose keys and values mostly have at most so many bytes.
    ///
    /// ```
    /// assert!(bwtree::Tree::for_pairs(4, 1000, 16, 8)?.is_empty());
    /// # Ok::<(), bwtree::Error>(())
    /// ```
    ///
    /// # Errors
    ///
    /// Those of [`Limits::for_pairs`] and [`Tree::open`].
    pub fn for_pairs(seats: u64, keys: u64, key_bytes: u64, value_bytes: u64) -> Result<Tree> {
        Tree::open(Limits::for_pairs(seats, keys, key_bytes, value_bytes)?)
    }

    /// A seat, if one is free. It is free again when it is dropped.
    ///
    /// ```
    /// let tree = bwtree::Tree::for_keys(1, 100)?;
    /// let seat = tree.seat();
    /// assert!(seat.is_some() && tree.seat().is_none());
    /// # Ok::<(), bwtree::Error>(())
    /// ```
    pub fn seat(&self) -> Option<Seat<'_>> {
        let number = self.leased()?;
        Some(Seat::new(Share::Lent(self), number))
    }

    /// The number of a seat that was free, and is lent now.
    fn leased(&self) -> Option<u32> {
        let mut free = self.free.load(SeqCst);
        while free != 0 {
            let number = free.trailing_zeros();
            match self.free.compare_exchange_weak(free, free & !(1 << number), SeqCst, SeqCst) {
                Ok(_) => return Some(number),
                Err(now) => free = now,
            }
        }
        None
    }

    /// A seat that keeps a share of the tree, if one is free: it may outlive the scope, as in a thread that is spawned. The tree is closed once all shares are
    /// dropped.
    ///
    /// ```
    /// use std::sync::Arc;
    /// let tree = Arc::new(bwtree::Tree::for_keys(2, 100)?);
    /// let mut seat = bwtree::Tree::seat_of(&tree).expect("one is free");
    /// std::thread::spawn(move || seat.upsert(b"Bern", b"Switzerland")).join().expect("it doesn't panic")?;
    /// assert!(tree.seat().expect("one is free").contains_key(b"Bern")?);
    /// # Ok::<(), bwtree::Error>(())
    /// ```
    pub fn seat_of(tree: &Arc<Tree>) -> Option<Seat<'static>> {
        let number = tree.leased()?;
        Some(Seat::new(Share::Kept(Arc::clone(tree)), number))
    }

    /// How many keys the tree has: exact when no call is under way; otherwise it may lack some calls that are.
    ///
    /// ```
    /// let tree = bwtree::Tree::for_keys(1, 100)?;
    /// tree.seat().expect("one is free").upsert(b"Bern", b"Switzerland")?;
    /// assert_eq!(tree.len(), 1);
    /// # Ok::<(), bwtree::Error>(())
    /// ```
    pub fn len(&self) -> usize {
        self.counts.iter().map(|count| count.0.load(Relaxed)).sum::<i64>().max(0) as usize
    }

    /// Whether the tree has no keys, as [`Tree::len`] counts them.
    ///
    /// ```
    /// assert!(bwtree::Tree::for_keys(1, 100)?.is_empty());
    /// # Ok::<(), bwtree::Error>(())
    /// ```
    pub fn is_empty(&self) -> bool {
        self.len() == 0
    }
}

impl Tree {
    /// Closes the tree, and hands its pairs over, keys ascending.
    ///
    /// ```
    /// let tree = bwtree::Tree::for_keys(1, 100)?;
    /// tree.seat().expect("one is free").upsert(b"Bern", b"Switzerland")?;
    /// let pairs = tree.into_pairs().map_err(|(_, error)| error)?;
    /// assert_eq!(pairs, [(b"Bern".to_vec(), b"Switzerland".to_vec())]);
    /// # Ok::<(), bwtree::Error>(())
    /// ```
    ///
    /// # Errors
    ///
    /// [`Error::NoMemory`], with the tree as it was.
    pub fn into_pairs(self) -> std::result::Result<Vec<Pair>, (Tree, Error)> {
        let mut raw: Vec<RawPair> = Vec::new();
        let mut count = 0;
        let status = loop {
            // SAFETY: the handle, the pairs and the count live as long as the call. (All seats were dropped: no call is inside one, and none left an operation.)
            match unsafe { bwtree_raw_close_pairs(&*self.handle, raw.as_mut_ptr(), raw.len(), &mut count) } {
                NO_ROOM => raw.resize(count as usize, RawPair::EMPTY),
                status => break status,
            }
        };
        match settled(status) {
            Ok(_) => Ok(raw.iter().map(|pair| (pair.key.as_slice().to_vec(), pair.value.as_slice().to_vec())).collect()),
            Err(error) => Err((self, error)),
        }
    }
}

impl Drop for Tree {
    fn drop(&mut self) {
        // SAFETY: the handle lives as long as the call. (All seats were dropped: no call is inside one.)
        unsafe { bwtree_raw_close(&*self.handle) };
    }
}

impl fmt::Debug for Tree {
    fn fmt(&self, f: &mut fmt::Formatter<'_>) -> fmt::Result {
        f.debug_struct("Tree").field("free_seats", &self.free.load(SeqCst).count_ones()).finish_non_exhaustive()
    }
}

/// A status of an operation that took place, or why there is none. Those that aren't named come of misuse, which the types here rule out.
fn settled(status: u32) -> Result<u32> {
    match status {
        OK..=DIFFERS => Ok(status),
        FULL => Err(Error::Full),
        TOO_LONG => Err(Error::TooLong),
        BAD_LIMITS => Err(Error::BadLimits),
        NO_MEMORY => Err(Error::NoMemory),
        BAD_ORDER => Err(Error::BadOrder),
        BAD_VERSION => Err(Error::BadVersion),
        _ => panic!("libbwtree answers with status {status}"),
    }
}
