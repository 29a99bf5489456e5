//! Keys of numbers and texts that sort as these do, since a tree compares keys byte by byte.
//!
//! A key is put together part by part, so that a tuple sorts by its first part, then by its second one. Keys that are compared have parts of the same
//! kinds, in the same order. The bytes are the same in C, C++, Python and Go:
//!
//! - `u64`: eight bytes, the highest first;
//! - `i64`: the same, with the highest bit turned;
//! - `f64`: the same of its bits, all turned if it is negative, else the highest one alone, which is the order of [`f64::total_cmp`];
//! - text, `str` or `[u8]`: its bytes, each 0 as 0 255, and then 0 0.
//!
//! ```
//! use bwtree::keys;
//! let key = keys::of(("Bern", 7u64));
//! assert_eq!(keys::parts::<(String, u64)>(&key), Some(("Bern".to_string(), 7)));
//! assert!(keys::of(("Bern", 7u64)) < keys::of(("Bern", 10u64)) && keys::of(-1i64) < keys::of(0i64));
//! ```
use crate::{Error, Result, MAX_LENGTH};

/// What is a part of a key, or several in turn: `u64`, `i64`, `f64`, a text, or a tuple of these.
pub trait Part {
    /// Puts the part behind what the key has.
    fn put(&self, key: &mut Vec<u8>);
}

/// What can be read from a key: `u64`, `i64`, `f64`, `String`, `Vec<u8>`, or a tuple of these.
pub trait Parts: Sized {
    /// The part with which these bytes begin, and what is behind it.
    fn read(key: &[u8]) -> Option<(Self, &[u8])>;
}

/// A key of these parts. It may have more than 64 bytes: a call with it answers [`Error::TooLong`] then.
///
/// ```
/// use bwtree::keys;
/// assert_eq!(keys::of(("a", 1u64)), b"a\0\0\0\0\0\0\0\0\0\x01");
/// ```
pub fn of(parts: impl Part) -> Vec<u8> {
    let mut key = Vec::new();
    parts.put(&mut key);
    key
}

/// A text without its end: the keys whose text begins with it begin with these bytes.
///
/// ```
/// use bwtree::keys;
/// assert!(keys::of("Bern").starts_with(&keys::text_start("Be")));
/// ```
pub fn text_start(text: impl AsRef<[u8]>) -> Vec<u8> {
    text.as_ref().iter().flat_map(|&byte| std::iter::once(byte).chain((byte == 0).then_some(255))).collect()
}

/// The parts of a key; none where it has others.
///
/// ```
/// use bwtree::keys;
/// assert_eq!(keys::parts::<i64>(&keys::of(-7i64)), Some(-7));
/// assert_eq!(keys::parts::<u64>(b"short"), None);
/// ```
pub fn parts<P: Parts>(key: &[u8]) -> Option<P> {
    P::read(key).and_then(|(read, rest)| rest.is_empty().then_some(read))
}

impl<P: Part + ?Sized> Part for &P {
    fn put(&self, key: &mut Vec<u8>) {
        (**self).put(key);
    }
}

impl Part for u64 {
    fn put(&self, key: &mut Vec<u8>) {
        key.extend(self.to_be_bytes());
    }
}

impl Part for i64 {
    fn put(&self, key: &mut Vec<u8>) {
        (*self as u64 ^ 1 << 63).put(key);
    }
}

impl Part for f64 {
    fn put(&self, key: &mut Vec<u8>) {
        let bits = self.to_bits();
        (if bits >> 63 == 1 { !bits } else { bits ^ 1 << 63 }).put(key);
    }
}

impl Part for [u8] {
    fn put(&self, key: &mut Vec<u8>) {
        key.extend(text_start(self));
        key.extend([0, 0]);
    }
}

impl Part for str {
    fn put(&self, key: &mut Vec<u8>) {
        self.as_bytes().put(key);
    }
}

impl Part for String {
    fn put(&self, key: &mut Vec<u8>) {
        self.as_bytes().put(key);
    }
}

impl Part for Vec<u8> {
    fn put(&self, key: &mut Vec<u8>) {
        self.as_slice().put(key);
    }
}

impl Parts for u64 {
    fn read(key: &[u8]) -> Option<(Self, &[u8])> {
        let (number, rest) = key.split_at_checked(8)?;
        Some((u64::from_be_bytes(number.try_into().ok()?), rest))
    }
}

impl Parts for i64 {
    fn read(key: &[u8]) -> Option<(Self, &[u8])> {
        u64::read(key).map(|(bits, rest)| ((bits ^ 1 << 63) as i64, rest))
    }
}

impl Parts for f64 {
    fn read(key: &[u8]) -> Option<(Self, &[u8])> {
        u64::read(key).map(|(bits, rest)| (f64::from_bits(if bits >> 63 == 1 { bits ^ 1 << 63 } else { !bits }), rest))
    }
}

impl Parts for Vec<u8> {
    fn read(key: &[u8]) -> Option<(Self, &[u8])> {
        let (mut text, mut rest) = (Vec::new(), key);
        loop {
            let (byte, behind) = match rest {
                [0, 0, behind @ ..] => return Some((text, behind)),
                [0, 255, behind @ ..] => (0, behind),
                [byte @ 1..=255, behind @ ..] => (*byte, behind),
                _ => return None,
            };
            text.push(byte);
            rest = behind;
        }
    }
}

impl Parts for String {
    fn read(key: &[u8]) -> Option<(Self, &[u8])> {
        let (text, rest) = Vec::<u8>::read(key)?;
        Some((String::from_utf8(text).ok()?, rest))
    }
}

macro_rules! tuples {
    ($($name:ident)+) => {
        impl<$($name: Part),+> Part for ($($name,)+) {
            #[allow(non_snake_case)]
            fn put(&self, key: &mut Vec<u8>) {
                let ($($name,)+) = self;
                $($name.put(key);)+
            }
        }

        impl<$($name: Parts),+> Parts for ($($name,)+) {
            #[allow(non_snake_case)]
            fn read(key: &[u8]) -> Option<(Self, &[u8])> {
                $(let ($name, key) = $name::read(key)?;)+
                Some((($($name,)+), key))
            }
        }
    };
}

tuples!(A);
tuples!(A B);
tuples!(A B C);
tuples!(A B C D);
tuples!(A B C D E);
tuples!(A B C D E F);

/// The greatest key below this one, of at most 64 bytes, if there is one: without a last 0; else with a last byte that is one less, and filled up with 255.
///
/// ```
/// use bwtree::keys;
/// assert_eq!(keys::before(b"a\0"), Some(b"a".to_vec()));
/// assert_eq!(keys::before(b""), None);
/// ```
pub fn before(key: &[u8]) -> Option<Vec<u8>> {
    let (&last, rest) = key.split_last()?;
    let mut found = rest.to_vec();
    if last > 0 {
        found.push(last - 1);
        found.resize(MAX_LENGTH.max(found.len()), 255);
    }
    Some(found)
}

/// The least key that is above all that begin with these bytes, if there is one.
///
/// ```
/// use bwtree::keys;
/// assert_eq!(keys::behind(b"ab"), Some(b"ac".to_vec()));
/// assert_eq!(keys::behind(&[255]), None);
/// ```
pub fn behind(prefix: &[u8]) -> Option<Vec<u8>> {
    let place = prefix.iter().rposition(|&byte| byte < 255)?;
    let mut found = prefix[..=place].to_vec();
    found[place] += 1;
    Some(found)
}

/// The least key above this one, if there is one: with a 0 behind it, if there is room.
///
/// # Errors
///
/// [`Error::TooLong`] of a key of more than 64 bytes.
///
/// ```
/// use bwtree::keys;
/// assert_eq!(keys::after(b"a")?, Some(b"a\0".to_vec()));
/// assert_eq!(keys::after(&[0; 65]), Err(bwtree::Error::TooLong));
/// # Ok::<(), bwtree::Error>(())
/// ```
pub fn after(key: &[u8]) -> Result<Option<Vec<u8>>> {
    match key.len() {
        0..MAX_LENGTH => Ok(Some([key, &[0]].concat())),
        MAX_LENGTH => Ok(behind(key)),
        _ => Err(Error::TooLong),
    }
}
