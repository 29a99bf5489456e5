//! A seat, and the calls on it.
use crate::ffi::*;
use crate::{settled, Add, CompareAndSet, DeleteIf, Error, Result, Tree, MAX_LENGTH, STEPS};
use std::cell::Cell;
use std::marker::PhantomData;
use std::ops::Deref;
use std::sync::atomic::Ordering::{Relaxed, SeqCst};
use std::sync::Arc;
use std::time::Duration;

/// The value that goes with one of the statuses.
fn shown(status: u32, old: &RawBytes, with_value: u32) -> Option<Vec<u8>> {
    (status == with_value).then(|| old.as_slice().to_vec())
}

/// A seat's tree: lent to it, or a share of its own.
#[derive(Debug)]
pub(crate) enum Share<'tree> {
    Lent(&'tree Tree),
    Kept(Arc<Tree>),
}

impl Deref for Share<'_> {
    type Target = Tree;

    fn deref(&self) -> &Tree {
        match self {
            Share::Lent(tree) => tree,
            Share::Kept(tree) => tree,
        }
    }
}

/// A seat of a tree, where one thread at a time calls it: it is `Send`, and not `Sync`.
#[derive(Debug)]
pub struct Seat<'tree> {
    pub(crate) tree: Share<'tree>,
    pub(crate) number: u32,
    pub(crate) patience: Duration,
    /// Whether the thread keeps its number when it is dropped.
    is_own: bool,
    alone: PhantomData<Cell<()>>,
}

impl<'tree> Seat<'tree> {
    /// A seat whose number was leased.
    pub(crate) fn new(tree: Share<'tree>, number: u32) -> Seat<'tree> {
        Seat { tree, number, patience: Duration::ZERO, is_own: false, alone: PhantomData }
    }

    /// The calling thread's own seat, whose number the thread keeps.
    pub(crate) fn own(tree: &'tree Tree, number: u32, patience: Duration) -> Seat<'tree> {
        Seat { tree: Share::Lent(tree), number, patience, is_own: true, alone: PhantomData }
    }
}

impl Drop for Seat<'_> {
    fn drop(&mut self) {
        if !self.is_own {
            self.tree.free.fetch_or(1 << self.number, SeqCst);
        }
    }
}

impl Seat<'_> {
    pub(crate) fn handle(&self) -> *const RawTree {
        &*self.tree.handle
    }

    /// What an operation came to; it is resumed until it is done.
    pub(crate) fn done(&mut self, mut status: u32, old: &mut RawBytes) -> Result<u32> {
        if status == SPENT {
            let mut page = Box::new(RawPage::EMPTY);
            while status == SPENT {
                // SAFETY: the handle, `old` and the page live as long as the call.
                status = unsafe { bwtree_raw_resume(self.handle(), self.number, STEPS, old, &mut *page) };
            }
        }
        settled(status)
    }

    /// What a write came to that changes the number of keys by this where it is OK.
    fn counted(&mut self, more: i64, old: &mut RawBytes, call: impl Fn(*const RawTree, u32, &mut RawBytes) -> u32) -> Result<u32> {
        let status = self.written(old, call)?;
        if status == OK {
            self.tree.counts[self.number as usize].0.fetch_add(more, Relaxed);
        }
        Ok(status)
    }

    /// The value of a key.
    ///
    /// ```
    /// let tree = bwtree::Tree::for_keys(1, 100)?;
    /// let mut seat = tree.seat().expect("one is free");
    /// seat.upsert(b"Bern", b"Switzerland")?;
    /// assert_eq!(seat.get(b"Bern")?, Some(b"Switzerland".to_vec()));
    /// assert_eq!(seat.get(b"Oslo")?, None);
    /// # Ok::<(), bwtree::Error>(())
    /// ```
    ///
    /// # Errors
    ///
    /// [`Error::TooLong`] of a key of more than 64 bytes.
    pub fn get(&mut self, key: &[u8]) -> Result<Option<Vec<u8>>> {
        self.get_with(key, <[u8]>::to_vec)
    }

    /// What a function makes of the value of a key: it borrows the value, and no memory is allocated for it.
    ///
    /// ```
    /// let tree = bwtree::Tree::for_keys(1, 100)?;
    /// let mut seat = tree.seat().expect("one is free");
    /// seat.upsert(b"Bern", b"Switzerland")?;
    /// assert_eq!(seat.get_with(b"Bern", |value| value.len())?, Some(11));
    /// assert_eq!(seat.get_with(b"Oslo", |value| value.len())?, None);
    /// # Ok::<(), bwtree::Error>(())
    /// ```
    ///
    /// # Errors
    ///
    /// [`Error::TooLong`] of a key of more than 64 bytes.
    pub fn get_with<R>(&mut self, key: &[u8], read: impl FnOnce(&[u8]) -> R) -> Result<Option<R>> {
        let mut value = RawBytes::EMPTY;
        // SAFETY: the slice and `value` live as long as the call.
        let status = unsafe { bwtree_raw_get(self.handle(), self.number, key.as_ptr(), key.len(), &mut value) };
        Ok((self.done(status, &mut value)? == OK).then(|| read(value.as_slice())))
    }

    /// Whether a key has a value.
    ///
    /// ```
    /// let tree = bwtree::Tree::for_keys(1, 100)?;
    /// let mut seat = tree.seat().expect("one is free");
    /// seat.upsert(b"Bern", b"Switzerland")?;
    /// assert!(seat.contains_key(b"Bern")? && !seat.contains_key(b"Oslo")?);
    /// # Ok::<(), bwtree::Error>(())
    /// ```
    ///
    /// # Errors
    ///
    /// [`Error::TooLong`] of a key of more than 64 bytes.
    pub fn contains_key(&mut self, key: &[u8]) -> Result<bool> {
        Ok(self.get_with(key, |_| ())?.is_some())
    }

    /// Gives a key a value where it has none: the value that it has, if it has one.
    ///
    /// ```
    /// let tree = bwtree::Tree::for_keys(1, 100)?;
    /// let mut seat = tree.seat().expect("one is free");
    /// assert_eq!(seat.insert(b"Bern", b"Switzerland")?, None);
    /// assert_eq!(seat.insert(b"Bern", b"Suisse")?, Some(b"Switzerland".to_vec()));
    /// assert_eq!(seat.get(b"Bern")?, Some(b"Switzerland".to_vec()));
    /// # Ok::<(), bwtree::Error>(())
    /// ```
    ///
    /// # Errors
    ///
    /// [`Error::TooLong`] of a key or value of more than 64 bytes; [`Error::Full`] where nothing was free for the change. No key was changed then.
    pub fn insert(&mut self, key: &[u8], value: &[u8]) -> Result<Option<Vec<u8>>> {
        let mut old = RawBytes::EMPTY;
        // SAFETY: the slices and `old` live as long as the call.
        let status = self.counted(1, &mut old, |tree, seat, old| unsafe {
            bwtree_raw_insert(tree, seat, key.as_ptr(), key.len(), value.as_ptr(), value.len(), old)
        })?;
        Ok(shown(status, &old, EXISTS))
    }

    /// Gives a key a value: the one that it had before, if it had one.
    ///
    /// ```
    /// let tree = bwtree::Tree::for_keys(1, 100)?;
    /// let mut seat = tree.seat().expect("one is free");
    /// assert_eq!(seat.upsert(b"Bern", b"Switzerland")?, None);
    /// assert_eq!(seat.upsert(b"Bern", b"Suisse")?, Some(b"Switzerland".to_vec()));
    /// assert_eq!(seat.upsert(&[0; 65], b""), Err(bwtree::Error::TooLong));
    /// # Ok::<(), bwtree::Error>(())
    /// ```
    ///
    /// # Errors
    ///
    /// [`Error::TooLong`] of a key or value of more than 64 bytes; [`Error::Full`] where nothing was free for the change. No key was changed then.
    pub fn upsert(&mut self, key: &[u8], value: &[u8]) -> Result<Option<Vec<u8>>> {
        let mut old = RawBytes::EMPTY;
        // SAFETY: the slices and `old` live as long as the call.
        let status = self.counted(1, &mut old, |tree, seat, old| unsafe {
            bwtree_raw_upsert(tree, seat, key.as_ptr(), key.len(), value.as_ptr(), value.len(), old)
        })?;
        Ok(shown(status, &old, REPLACED))
    }

    /// Gives a key a value where it has one: the value that it had. It makes several calls, and takes effect atomically in the last one.
    ///
    /// ```
    /// let tree = bwtree::Tree::for_keys(1, 100)?;
    /// let mut seat = tree.seat().expect("one is free");
    /// assert_eq!(seat.replace(b"Bern", b"Switzerland")?, None);
    /// assert!(!seat.contains_key(b"Bern")?);
    /// # Ok::<(), bwtree::Error>(())
    /// ```
    ///
    /// # Errors
    ///
    /// [`Error::TooLong`] of a key or value of more than 64 bytes; [`Error::Full`] where nothing was free for the change. No key was changed then.
    pub fn replace(&mut self, key: &[u8], value: &[u8]) -> Result<Option<Vec<u8>>> {
        if value.len() > MAX_LENGTH {
            return Err(Error::TooLong);
        }
        let mut old = self.get(key)?;
        while let Some(expected) = old {
            old = match self.compare_and_set(key, &expected, value)? {
                CompareAndSet::Set => return Ok(Some(expected)),
                CompareAndSet::Differs(found) => Some(found),
                CompareAndSet::Absent => None,
            }
        }
        Ok(None)
    }

    /// Makes a key absent: the value that it had.
    ///
    /// ```
    /// let tree = bwtree::Tree::for_keys(1, 100)?;
    /// let mut seat = tree.seat().expect("one is free");
    /// seat.upsert(b"Bern", b"Switzerland")?;
    /// assert_eq!(seat.delete(b"Bern")?, Some(b"Switzerland".to_vec()));
    /// assert_eq!(seat.delete(b"Bern")?, None);
    /// # Ok::<(), bwtree::Error>(())
    /// ```
    ///
    /// # Errors
    ///
    /// [`Error::TooLong`] of a key or value of more than 64 bytes; [`Error::Full`] where nothing was free for the change. No key was changed then.
    pub fn delete(&mut self, key: &[u8]) -> Result<Option<Vec<u8>>> {
        let mut old = RawBytes::EMPTY;
        // SAFETY: the slice and `old` live as long as the call.
        let status = self.counted(-1, &mut old, |tree, seat, old| unsafe { bwtree_raw_delete(tree, seat, key.as_ptr(), key.len(), old) })?;
        Ok(shown(status, &old, OK))
    }

    /// Makes a key absent where it has the expected value.
    ///
    /// ```
    /// let tree = bwtree::Tree::for_keys(1, 100)?;
    /// let mut seat = tree.seat().expect("one is free");
    /// seat.upsert(b"Bern", b"Switzerland")?;
    /// assert_eq!(seat.delete_if(b"Bern", b"Suisse")?, bwtree::DeleteIf::Differs(b"Switzerland".to_vec()));
    /// assert_eq!(seat.delete_if(b"Bern", b"Switzerland")?, bwtree::DeleteIf::Deleted);
    /// # Ok::<(), bwtree::Error>(())
    /// ```
    ///
    /// # Errors
    ///
    /// [`Error::TooLong`] of a key or value of more than 64 bytes; [`Error::Full`] where nothing was free for the change. No key was changed then.
    pub fn delete_if(&mut self, key: &[u8], expected: &[u8]) -> Result<DeleteIf> {
        let mut old = RawBytes::EMPTY;
        // SAFETY: the slices and `old` live as long as the call.
        let status = self.counted(-1, &mut old, |tree, seat, old| unsafe {
            bwtree_raw_delete_if(tree, seat, key.as_ptr(), key.len(), expected.as_ptr(), expected.len(), old)
        })?;
        Ok(match status {
            OK => DeleteIf::Deleted,
            DIFFERS => DeleteIf::Differs(old.as_slice().to_vec()),
            _ => DeleteIf::Absent,
        })
    }

    /// Adds a number, modulo 2^64, to the one that a key's value of eight bytes is, the highest byte first; a key without a value gets the number.
    ///
    /// ```
    /// let tree = bwtree::Tree::for_keys(1, 100)?;
    /// let mut seat = tree.seat().expect("one is free");
    /// assert_eq!(seat.add(b"visits", 2)?, bwtree::Add::Set);
    /// assert_eq!(seat.add(b"visits", 3)?, bwtree::Add::Added(2));
    /// assert_eq!(seat.get(b"visits")?, Some(5u64.to_be_bytes().to_vec()));
    /// # Ok::<(), bwtree::Error>(())
    /// ```
    ///
    /// # Errors
    ///
    /// [`Error::TooLong`] of a key or value of more than 64 bytes; [`Error::Full`] where nothing was free for the change. No key was changed then.
    pub fn add(&mut self, key: &[u8], number: u64) -> Result<Add> {
        let mut old = RawBytes::EMPTY;
        // SAFETY: the slice and `old` live as long as the call.
        let status = self.counted(1, &mut old, |tree, seat, old| unsafe { bwtree_raw_add(tree, seat, key.as_ptr(), key.len(), number, old) })?;
        Ok(match (status, old.as_slice().try_into()) {
            (REPLACED, Ok(bytes)) => Add::Added(u64::from_be_bytes(bytes)),
            (OK, _) => Add::Set,
            _ => Add::Differs(old.as_slice().to_vec()),
        })
    }

    /// Gives a key the value where it has the expected one.
    ///
    /// ```
    /// let tree = bwtree::Tree::for_keys(1, 100)?;
    /// let mut seat = tree.seat().expect("one is free");
    /// seat.upsert(b"lock", b"free")?;
    /// assert_eq!(seat.compare_and_set(b"lock", b"free", b"taken")?, bwtree::CompareAndSet::Set);
    /// assert_eq!(seat.compare_and_set(b"lock", b"free", b"taken")?, bwtree::CompareAndSet::Differs(b"taken".to_vec()));
    /// # Ok::<(), bwtree::Error>(())
    /// ```
    ///
    /// # Errors
    ///
    /// [`Error::TooLong`] of a key or value of more than 64 bytes; [`Error::Full`] where nothing was free for the change. No key was changed then.
    pub fn compare_and_set(&mut self, key: &[u8], expected: &[u8], value: &[u8]) -> Result<CompareAndSet> {
        let mut old = RawBytes::EMPTY;
        // SAFETY: the slices and `old` live as long as the call.
        let status = self.written(&mut old, |tree, seat, old| unsafe {
            bwtree_raw_swap(tree, seat, key.as_ptr(), key.len(), expected.as_ptr(), expected.len(), value.as_ptr(), value.len(), old)
        })?;
        Ok(match status {
            OK => CompareAndSet::Set,
            DIFFERS => CompareAndSet::Differs(old.as_slice().to_vec()),
            _ => CompareAndSet::Absent,
        })
    }

    /// Upserts pairs, in order: a later pair of a key replaces an earlier one. [`Extend`] and [`FromIterator`] are not implemented, since they can return no error.
    ///
    /// ```
    /// let tree = bwtree::Tree::for_keys(1, 100)?;
    /// let mut seat = tree.seat().expect("one is free");
    /// seat.try_extend([("Bern", "Switzerland"), ("Oslo", "Norway")])?;
    /// assert_eq!(tree.len(), 2);
    /// # Ok::<(), bwtree::Error>(())
    /// ```
    ///
    /// # Errors
    ///
    /// [`Error::TooLong`] and [`Error::Full`], as of [`Seat::upsert`]: the pairs before that one are in the tree, and those after it are not read.
    pub fn try_extend<K: AsRef<[u8]>, V: AsRef<[u8]>>(&mut self, pairs: impl IntoIterator<Item = (K, V)>) -> Result<()> {
        pairs.into_iter().try_for_each(|(key, value)| self.upsert(key.as_ref(), value.as_ref()).map(drop))
    }

    /// Does what upkeep is due at the leaf of a key; no value changes.
    ///
    /// ```
    /// let tree = bwtree::Tree::for_keys(1, 100)?;
    /// let mut seat = tree.seat().expect("one is free");
    /// seat.tidy(b"Bern")?;
    /// # Ok::<(), bwtree::Error>(())
    /// ```
    ///
    /// # Errors
    ///
    /// [`Error::TooLong`] of a key or value of more than 64 bytes; [`Error::Full`] where nothing was free for the change. No key was changed then.
    pub fn tidy(&mut self, key: &[u8]) -> Result<()> {
        // SAFETY: the slice lives as long as the call.
        self.written(&mut { RawBytes::EMPTY }, |tree, seat, _| unsafe { bwtree_raw_tidy(tree, seat, key.as_ptr(), key.len()) }).map(drop)
    }
}
