//! Walks over pages, in both directions, and the neighbours of a key.
use crate::ffi::*;
use crate::keys::{after, before, behind};
use crate::{settled, Error, Result, Seat, MAX_LENGTH, STEPS};
use std::iter::FusedIterator;
use std::ops::{Bound, RangeBounds};

/// A key and its value.
pub type Pair = (Vec<u8>, Vec<u8>);

/// The greatest key.
const GREATEST: [u8; MAX_LENGTH] = [255; MAX_LENGTH];

impl<'tree> Seat<'tree> {
    /// All pairs, keys ascending; `rev()` shows them from the greatest key down. What is in the tree throughout the walk is shown, and what never is
    /// there isn't.
    ///
    /// ```
    /// let tree = bwtree::Tree::for_keys(1, 100)?;
    /// let mut seat = tree.seat().expect("one is free");
    /// seat.try_extend([("a", "1"), ("b", "2"), ("c", "3")])?;
    /// let keys: Vec<_> = seat.pairs().rev().map(|pair| pair.map(|(key, _)| key)).collect::<bwtree::Result<_>>()?;
    /// assert_eq!(keys, [b"c", b"b", b"a"]);
    /// # Ok::<(), bwtree::Error>(())
    /// ```
    pub fn pairs(&mut self) -> Pairs<'_, 'tree> {
        Pairs::between(self, &[], None, false)
    }

    /// The pairs from a key on. The first item is [`Error::TooLong`] of a key of more than 64 bytes.
    ///
    /// ```
    /// let tree = bwtree::Tree::for_keys(1, 100)?;
    /// let mut seat = tree.seat().expect("one is free");
    /// seat.try_extend([("a", "1"), ("b", "2"), ("c", "3")])?;
    /// assert_eq!(seat.pairs_from(b"b").count(), 2);
    /// # Ok::<(), bwtree::Error>(())
    /// ```
    pub fn pairs_from(&mut self, from: &[u8]) -> Pairs<'_, 'tree> {
        Pairs::between(self, from, None, is_long(from))
    }

    /// The pairs whose keys lie in a range, such as `"a".."b"`. The first item is [`Error::TooLong`] where a bound has more than 64 bytes.
    ///
    /// ```
    /// let tree = bwtree::Tree::for_keys(1, 100)?;
    /// let mut seat = tree.seat().expect("one is free");
    /// seat.try_extend([("a", "1"), ("b", "2"), ("c", "3")])?;
    /// assert_eq!(seat.range("a".."c").count(), 2);
    /// assert_eq!(seat.range("b"..).next(), Some(Ok((b"b".to_vec(), b"2".to_vec()))));
    /// # Ok::<(), bwtree::Error>(())
    /// ```
    pub fn range<K: AsRef<[u8]>>(&mut self, keys: impl RangeBounds<K>) -> Pairs<'_, 'tree> {
        let (start, end) = (keys.start_bound().map(K::as_ref), keys.end_bound().map(K::as_ref));
        let is_long = [start, end].iter().any(|bound| matches!(bound, Bound::Included(key) | Bound::Excluded(key) if is_long(key)));
        let from = match start {
            Bound::Included(key) => key.to_vec(),
            Bound::Excluded(key) => place_behind(key),
            Bound::Unbounded => Vec::new(),
        };
        let below = match end {
            Bound::Included(key) => Some(place_behind(key)),
            Bound::Excluded(key) => Some(key.to_vec()),
            Bound::Unbounded => None,
        };
        Pairs::between(self, &from, below, is_long)
    }

    /// The pairs whose keys begin with these bytes. The first item is [`Error::TooLong`] where there are more than 64.
    ///
    /// ```
    /// let tree = bwtree::Tree::for_keys(1, 100)?;
    /// let mut seat = tree.seat().expect("one is free");
    /// seat.try_extend([("a", "1"), ("ab", "2"), ("b", "3")])?;
    /// assert_eq!(seat.prefix(b"a").count(), 2);
    /// # Ok::<(), bwtree::Error>(())
    /// ```
    pub fn prefix(&mut self, prefix: &[u8]) -> Pairs<'_, 'tree> {
        Pairs::between(self, prefix, behind(prefix), is_long(prefix))
    }

    /// The pair of the least key. As with the functions below, the answer is atomic if the first page that is read has a pair; otherwise it is a walk's.
    ///
    /// ```
    /// let tree = bwtree::Tree::for_keys(1, 100)?;
    /// let mut seat = tree.seat().expect("one is free");
    /// seat.try_extend([("a", "1"), ("b", "2"), ("c", "3")])?;
    /// assert_eq!(seat.first()?, Some((b"a".to_vec(), b"1".to_vec())));
    /// # Ok::<(), bwtree::Error>(())
    /// ```
    ///
    /// # Errors
    ///
    /// None: no key is too long.
    pub fn first(&mut self) -> Result<Option<Pair>> {
        self.pairs().next().transpose()
    }

    /// The pair of the greatest key.
    ///
    /// ```
    /// let tree = bwtree::Tree::for_keys(1, 100)?;
    /// let mut seat = tree.seat().expect("one is free");
    /// seat.try_extend([("a", "1"), ("b", "2"), ("c", "3")])?;
    /// assert_eq!(seat.last()?, Some((b"c".to_vec(), b"3".to_vec())));
    /// # Ok::<(), bwtree::Error>(())
    /// ```
    ///
    /// # Errors
    ///
    /// None: no key is too long.
    pub fn last(&mut self) -> Result<Option<Pair>> {
        self.pairs().next_back().transpose()
    }

    /// The pair of the least key that isn't below this one.
    ///
    /// ```
    /// let tree = bwtree::Tree::for_keys(1, 100)?;
    /// let mut seat = tree.seat().expect("one is free");
    /// seat.try_extend([("a", "1"), ("b", "2"), ("c", "3")])?;
    /// assert_eq!(seat.ceiling(b"aa")?, Some((b"b".to_vec(), b"2".to_vec())));
    /// # Ok::<(), bwtree::Error>(())
    /// ```
    ///
    /// # Errors
    ///
    /// [`Error::TooLong`] of a key of more than 64 bytes.
    pub fn ceiling(&mut self, key: &[u8]) -> Result<Option<Pair>> {
        self.pairs_from(key).next().transpose()
    }

    /// The pair of the least key above this one.
    ///
    /// ```
    /// let tree = bwtree::Tree::for_keys(1, 100)?;
    /// let mut seat = tree.seat().expect("one is free");
    /// seat.try_extend([("a", "1"), ("b", "2"), ("c", "3")])?;
    /// assert_eq!(seat.higher(b"b")?, Some((b"c".to_vec(), b"3".to_vec())));
    /// # Ok::<(), bwtree::Error>(())
    /// ```
    ///
    /// # Errors
    ///
    /// [`Error::TooLong`] of a key of more than 64 bytes.
    pub fn higher(&mut self, key: &[u8]) -> Result<Option<Pair>> {
        match after(key)? {
            Some(from) => self.ceiling(&from),
            None => Ok(None),
        }
    }

    /// The pair of the greatest key that isn't above this one.
    ///
    /// ```
    /// let tree = bwtree::Tree::for_keys(1, 100)?;
    /// let mut seat = tree.seat().expect("one is free");
    /// seat.try_extend([("a", "1"), ("b", "2"), ("c", "3")])?;
    /// assert_eq!(seat.floor(b"bb")?, Some((b"b".to_vec(), b"2".to_vec())));
    /// # Ok::<(), bwtree::Error>(())
    /// ```
    ///
    /// # Errors
    ///
    /// [`Error::TooLong`] of a key of more than 64 bytes.
    pub fn floor(&mut self, key: &[u8]) -> Result<Option<Pair>> {
        Pairs::between(self, &[], Some(place_behind(key)), is_long(key)).next_back().transpose()
    }

    /// The pair of the greatest key below this one.
    ///
    /// ```
    /// let tree = bwtree::Tree::for_keys(1, 100)?;
    /// let mut seat = tree.seat().expect("one is free");
    /// seat.try_extend([("a", "1"), ("b", "2"), ("c", "3")])?;
    /// assert_eq!(seat.lower(b"a")?, None);
    /// # Ok::<(), bwtree::Error>(())
    /// ```
    ///
    /// # Errors
    ///
    /// [`Error::TooLong`] of a key of more than 64 bytes.
    pub fn lower(&mut self, key: &[u8]) -> Result<Option<Pair>> {
        Pairs::between(self, &[], Some(key.to_vec()), is_long(key)).next_back().transpose()
    }
}

/// A page of one end of a walk: how many of its pairs were shown, and where the next page goes on.
struct End {
    page: Box<RawPage>,
    shown: u64,
    next: Option<RawBytes>,
}

impl End {
    fn at(key: Option<Vec<u8>>) -> End {
        End { page: Box::new(RawPage::EMPTY), shown: 0, next: key.and_then(|key| RawBytes::of(&key)) }
    }
}

impl<'seat, 'tree> IntoIterator for &'seat mut Seat<'tree> {
    type Item = Result<Pair>;
    type IntoIter = Pairs<'seat, 'tree>;

    /// All pairs, keys ascending.
    fn into_iter(self) -> Pairs<'seat, 'tree> {
        self.pairs()
    }
}

impl std::fmt::Debug for Pairs<'_, '_> {
    fn fmt(&self, f: &mut std::fmt::Formatter<'_>) -> std::fmt::Result {
        f.debug_struct("Pairs").field("from", &self.from).field("below", &self.below).finish_non_exhaustive()
    }
}

/// An iterator over pairs, from both ends. Each end goes on page by page; a key is shown at one end at most.
pub struct Pairs<'seat, 'tree> {
    seat: &'seat mut Seat<'tree>,
    /// What is left: the keys from one on, and below another one. Either bound may be the place behind a key.
    from: Vec<u8>,
    below: Option<Vec<u8>>,
    front: Option<End>,
    back: Option<End>,
    is_long: bool,
}

fn is_long(key: &[u8]) -> bool {
    key.len() > MAX_LENGTH
}

/// The place right behind a key: it may have a byte more than a key has.
fn place_behind(key: &[u8]) -> Vec<u8> {
    [key, &[0]].concat()
}

impl<'seat, 'tree> Pairs<'seat, 'tree> {
    fn between(seat: &'seat mut Seat<'tree>, from: &[u8], below: Option<Vec<u8>>, is_long: bool) -> Self {
        Pairs { seat, from: from.to_vec(), below, front: None, back: None, is_long }
    }

    /// Shows nothing more.
    fn end(&mut self) {
        self.below = Some(Vec::new());
    }

    /// Fills the page of an end, from the key at which it goes on; none where it is at its end.
    fn turn(&mut self, end: &mut End, is_back: bool) -> Result<Option<()>> {
        let Some(at) = end.next else { return Ok(None) };
        let (seat, key, mut old) = (&mut *self.seat, at.as_slice(), RawBytes::EMPTY);
        let call = if is_back { bwtree_raw_back } else { bwtree_raw_page };
        // SAFETY: the handle, the key and the page live as long as the call.
        let mut status = unsafe { call(seat.handle(), seat.number, key.as_ptr(), key.len(), &mut *end.page) };
        while status == SPENT {
            // SAFETY: as above, and `old` does.
            status = unsafe { bwtree_raw_resume(seat.handle(), seat.number, STEPS, &mut old, &mut *end.page) };
        }
        settled(status)?;
        (end.shown, end.next) = (0, (end.page.more == 1).then_some(end.page.next));
        Ok(Some(()))
    }

    /// The next pair of an end, if it is among those that are left.
    fn shown(&mut self, end: &mut End, is_back: bool) -> Result<Option<Pair>> {
        while end.shown == end.page.count {
            if self.turn(end, is_back)?.is_none() {
                return Ok(None);
            }
        }
        let place = if is_back { end.page.count - 1 - end.shown } else { end.shown };
        let (key, value) = (end.page.pairs[place as usize].key.as_slice(), end.page.pairs[place as usize].value.as_slice());
        end.shown += 1;
        let is_left = key >= self.from.as_slice() && self.below.as_deref().is_none_or(|below| key < below);
        Ok(is_left.then(|| (key.to_vec(), value.to_vec())))
    }

    /// An end of the walk, where it begins if nothing was shown there.
    fn begun(&self, is_back: bool) -> End {
        match (is_back, self.below.as_deref()) {
            (false, _) if self.from.len() > MAX_LENGTH => End::at(after(&self.from[..MAX_LENGTH]).ok().flatten()),
            (false, _) => End::at(Some(self.from.clone())),
            (true, None) => End::at(Some(GREATEST.to_vec())),
            (true, Some(below)) if below.len() > MAX_LENGTH => End::at(Some(below[..MAX_LENGTH].to_vec())),
            (true, Some(below)) => End::at(before(below)),
        }
    }

    fn step(&mut self, is_back: bool) -> Option<Result<Pair>> {
        if std::mem::take(&mut self.is_long) {
            self.end();
            return Some(Err(Error::TooLong));
        }
        if self.below.as_deref().is_some_and(|below| below <= self.from.as_slice()) {
            return None;
        }
        let taken = if is_back { self.back.take() } else { self.front.take() };
        let mut end = taken.unwrap_or_else(|| self.begun(is_back));
        let found = self.shown(&mut end, is_back);
        match &found {
            Ok(Some((key, _))) if is_back => self.below = Some(key.clone()),
            Ok(Some((key, _))) => self.from = place_behind(key),
            _ => self.end(),
        }
        *(if is_back { &mut self.back } else { &mut self.front }) = Some(end);
        found.transpose()
    }
}

impl Iterator for Pairs<'_, '_> {
    type Item = Result<Pair>;

    fn next(&mut self) -> Option<Self::Item> {
        self.step(false)
    }
}

impl DoubleEndedIterator for Pairs<'_, '_> {
    fn next_back(&mut self) -> Option<Self::Item> {
        self.step(true)
    }
}

impl FusedIterator for Pairs<'_, '_> {}
