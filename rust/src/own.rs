//! A thread's own seats: one a tree, which the thread keeps between calls.
use crate::{Seat, Tree};
use std::cell::RefCell;
use std::sync::atomic::{AtomicU64, Ordering::SeqCst};
use std::sync::Arc;
use std::time::Duration;

thread_local! {
    static OWN: RefCell<Vec<Own>> = const { RefCell::new(Vec::new()) };
}

/// The number of a seat that a thread keeps. It is given back when the thread ends; it doesn't keep the tree.
struct Own {
    free: Arc<AtomicU64>,
    number: u32,
    patience: Duration,
}

impl Drop for Own {
    fn drop(&mut self) {
        self.free.fetch_or(1 << self.number, SeqCst);
    }
}

impl Own {
    /// The calling thread's of a tree, out of those that it keeps; or one that is leased.
    fn of(tree: &Tree) -> Option<Own> {
        let kept = OWN.try_with(|all| {
            let mut all = all.borrow_mut();
            // (of trees that are gone, nobody else shares the seats)
            all.retain(|own| Arc::strong_count(&own.free) > 1);
            let place = all.iter().position(|own| own.is_of(tree))?;
            Some(all.swap_remove(place))
        });
        kept.ok().flatten().or_else(|| Some(Own { number: tree.leased()?, free: Arc::clone(&tree.free), patience: Duration::ZERO }))
    }

    fn is_of(&self, tree: &Tree) -> bool {
        Arc::ptr_eq(&self.free, &tree.free)
    }
}

/// A thread's own seat while a call uses it.
struct InUse<'tree> {
    own: Option<Own>,
    seat: Seat<'tree>,
}

impl Drop for InUse<'_> {
    fn drop(&mut self) {
        let Some(mut own) = self.own.take() else { return };
        own.patience = self.seat.patience;
        // (it is given back where the thread is ending, or where an inner call has left one)
        let _ = OWN.try_with(|all| {
            let mut all = all.borrow_mut();
            if !all.iter().any(|other| Arc::ptr_eq(&other.free, &own.free)) {
                all.push(own);
            }
        });
    }
}

impl Tree {
    /// Runs a function with the calling thread's own seat, which is leased by the thread's first such call, and free again when the thread has ended: once
    /// its handle is joined, while [`std::thread::scope`] may return before. None where the thread has none and no seat is free: the function isn't run. Inside
    /// the function, another such call leases another seat.
    ///
    /// ```
    /// let tree = bwtree::Tree::for_keys(2, 100)?;
    /// std::thread::scope(|scope| {
    ///     scope.spawn(|| tree.with_seat(|seat| seat.upsert(b"Bern", b"Switzerland")));
    /// });
    /// assert_eq!(tree.with_seat(|seat| seat.contains_key(b"Bern")), Some(Ok(true)));
    /// # Ok::<(), bwtree::Error>(())
    /// ```
    pub fn with_seat<R>(&self, run: impl FnOnce(&mut Seat<'_>) -> R) -> Option<R> {
        let own = Own::of(self)?;
        let mut used = InUse { seat: Seat::own(self, own.number, own.patience), own: Some(own) };
        Some(run(&mut used.seat))
    }

    /// Gives the calling thread's own seat back before the thread ends, if it has one.
    ///
    /// ```
    /// let tree = bwtree::Tree::for_keys(1, 100)?;
    /// tree.with_seat(|seat| seat.upsert(b"Bern", b"Switzerland"));
    /// assert!(tree.seat().is_none());
    /// tree.give_own_seat_back();
    /// assert!(tree.seat().is_some());
    /// # Ok::<(), bwtree::Error>(())
    /// ```
    pub fn give_own_seat_back(&self) {
        let _ = OWN.try_with(|all| all.borrow_mut().retain(|own| !own.is_of(self)));
    }
}
