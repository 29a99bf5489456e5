//! Writes that find the tree full: how they wait, and whether that may help.
use crate::ffi::{bwtree_raw_room, RawBytes, RawRoom, RawTree, OK};
use crate::{Error, Limits, Result, Room, Seat};
use std::thread::{sleep, yield_now};
use std::time::{Duration, Instant};

/// What may become of a write that is [`Error::Full`]. It is a hint, made from what is free a moment later: nothing is proved of it, and other calls
/// change it. Free records are counted over all widths. In a tree with records of three widths ([`Limits::widths`]) a write may need one of 512 words, so there
/// the hint is `Passed` only if one of these must be free, and never `ForNow`.
#[derive(Clone, Copy, Debug, PartialEq, Eq)]
pub enum FullHint {
    /// A page is free now, and a record with room for any change.
    Passed,
    /// No record is free, but pages are, and the limits have records enough for all pages: other seats hold records back.
    ForNow,
    /// No page is free; or no record, and the limits have too few: the tree itself may have them all. Where keys were just deleted, other seats may hold
    /// pages back still: so ask after a wait.
    ForGood,
    /// Of three widths alone: pages are free, but perhaps no record of 512 words, for now or for good. Wait; if that is in vain, a larger tree is needed, or
    /// one for longer pairs.
    Unknown,
}

impl FullHint {
    /// The hint from limits and what is free: records are enough from 9 for each page and 120 for each seat on, in a large tree 3 and 240. Of three widths,
    /// fewer than `wide_from` records are narrower than 512 words: if more are free, one of these has 512.
    ///
    /// ```
    /// use bwtree::{FullHint, Limits, Room};
    /// let limits = Limits { actors: 1, pages: 64, records: 704, large: false, widths: None };
    /// assert_eq!(FullHint::of(&limits, &Room { free_pages: 3, free_records: 0 }), FullHint::ForNow);
    /// assert_eq!(FullHint::of(&limits, &Room { free_pages: 0, free_records: 90 }), FullHint::ForGood);
    /// ```
    pub fn of(limits: &Limits, room: &Room) -> FullHint {
        let (page, seat) = if limits.large { (3, 240) } else { (9, 120) };
        let narrower = limits.widths.map_or(0, |widths| widths.wide_from);
        match room.free_records {
            _ if room.free_pages == 0 => FullHint::ForGood,
            free if free > narrower => FullHint::Passed,
            0 if limits.records < page * limits.pages + seat * limits.actors => FullHint::ForGood,
            _ if narrower > 0 => FullHint::Unknown,
            _ => FullHint::ForNow,
        }
    }
}

/// A wait between tries.
struct Wait {
    until: Instant,
    pauses: u32,
}

impl Wait {
    const YIELDS: u32 = 8;
    const SHORTEST: Duration = Duration::from_micros(50);
    const LONGEST: Duration = Duration::from_millis(5);

    /// Pauses, longer each time, and never beyond the end; says whether there is time for another try.
    fn again(&mut self) -> bool {
        let left = self.until.saturating_duration_since(Instant::now());
        if left.is_zero() {
            return false;
        }
        match self.pauses.checked_sub(Wait::YIELDS) {
            None => yield_now(),
            Some(doublings) => sleep((Wait::SHORTEST * (1 << doublings.min(7))).min(Wait::LONGEST).min(left)),
        }
        self.pauses += 1;
        true
    }
}

impl Seat<'_> {
    /// Sets how long a write waits while the tree is full, before it returns [`Error::Full`]. A seat that was just leased
    /// doesn't wait.
    ///
    /// ```
    /// let tree = bwtree::Tree::for_keys(1, 100)?;
    /// let mut seat = tree.seat().expect("one is free");
    /// seat.set_patience(std::time::Duration::from_millis(100));
    /// seat.upsert(b"Bern", b"Switzerland")?;
    /// # Ok::<(), bwtree::Error>(())
    /// ```
    pub fn set_patience(&mut self, most: Duration) {
        self.patience = most;
    }

    /// What may become of a write that is [`Error::Full`].
    ///
    /// ```
    /// let tree = bwtree::Tree::for_keys(1, 100)?;
    /// assert_eq!(tree.seat().expect("one is free").full_hint(), bwtree::FullHint::Passed);
    /// # Ok::<(), bwtree::Error>(())
    /// ```
    pub fn full_hint(&mut self) -> FullHint {
        let room = self.room();
        FullHint::of(&self.tree.limits, &room)
    }

    /// How many pages and records are free.
    ///
    /// ```
    /// let tree = bwtree::Tree::for_keys(1, 100)?;
    /// assert!(tree.seat().expect("one is free").room().free_records > 0);
    /// # Ok::<(), bwtree::Error>(())
    /// ```
    pub fn room(&mut self) -> Room {
        let mut room = RawRoom { free_pages: 0, free_records: 0 };
        // SAFETY: the handle and the room live as long as the call.
        let status = unsafe { bwtree_raw_room(self.handle(), self.number, &mut room) };
        assert_eq!(status, OK, "libbwtree's status");
        Room { free_pages: room.free_pages, free_records: room.free_records }
    }

    /// What a write came to. While it is full it is made again, until the seat's patience is at its end.
    pub(crate) fn written(&mut self, old: &mut RawBytes, call: impl Fn(*const RawTree, u32, &mut RawBytes) -> u32) -> Result<u32> {
        let mut status = self.once(old, &call);
        if status == Err(Error::Full) && !self.patience.is_zero() {
            let now = Instant::now();
            let mut wait = Wait { until: now.checked_add(self.patience).unwrap_or(now + Duration::from_secs(1 << 31)), pauses: 0 };
            while status == Err(Error::Full) && wait.again() {
                status = self.once(old, &call);
            }
        }
        status
    }

    /// What one try came to.
    fn once(&mut self, old: &mut RawBytes, call: impl Fn(*const RawTree, u32, &mut RawBytes) -> u32) -> Result<u32> {
        let status = call(self.handle(), self.number, old);
        self.done(status, old)
    }
}
