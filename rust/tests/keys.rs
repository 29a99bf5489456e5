//! Keys of numbers and texts: the same bytes as in other languages, in the order of their parts.
use bwtree::keys;

fn bytes_of(digits: &str) -> Vec<u8> {
    (0..digits.len()).step_by(2).map(|at| u8::from_str_radix(&digits[at..at + 2], 16).unwrap()).collect()
}

/// The key of a part, which is read again from the key's bytes.
fn key_of(part: &str) -> Vec<u8> {
    let (kind, word) = part.split_once(':').unwrap();
    match kind {
        "u64" => read_again(word.parse::<u64>().unwrap()),
        "i64" => read_again(word.parse::<i64>().unwrap()),
        "f64" => {
            let number = f64::from_bits(u64::from_str_radix(word, 16).unwrap());
            let key = keys::of(number);
            assert_eq!(keys::parts::<f64>(&key).unwrap().to_bits(), number.to_bits());
            key
        }
        _ => read_again(bytes_of(word)),
    }
}

fn read_again<P: keys::Part + keys::Parts + PartialEq + std::fmt::Debug>(part: P) -> Vec<u8> {
    let key = keys::of(&part);
    assert_eq!(keys::parts(&key), Some(part));
    key
}

#[test]
fn keys_are_as_in_other_languages() {
    let lines = std::fs::read_to_string(concat!(env!("CARGO_MANIFEST_DIR"), "/../c/tests/keys.txt")).unwrap();
    let groups = lines.split("\n\n").filter(|group| !group.starts_with('#'));
    let mut count = 0;
    for group in groups {
        let mut last = None;
        for line in group.lines() {
            let mut words = line.split(' ');
            let wanted = bytes_of(words.next().unwrap());
            assert_eq!(words.flat_map(key_of).collect::<Vec<_>>(), wanted, "{line}");
            assert!(last < Some(wanted.clone()), "{line}");
            (last, count) = (Some(wanted), count + 1);
        }
    }
    assert!(count > 100);
}

#[test]
fn tuples_sort_by_their_parts() {
    let mut all = Vec::new();
    for text in ["", "\0", "\0\0", "a", "a\0", "a\0b", "ab", "é", "😀"] {
        for number in [i64::MIN, -256, -1, 0, 1, i64::MAX] {
            for float in [f64::NEG_INFINITY, -1.5, -0.0, 0.0, 0.1, 1e300] {
                all.push(((text, number, float), keys::of((text, number, float))));
            }
        }
    }
    all.sort_by(|(one, _), (other, _)| one.0.cmp(other.0).then(one.1.cmp(&other.1)).then(one.2.total_cmp(&other.2)));
    assert!(all.windows(2).all(|two| two[0].1 < two[1].1));
    for ((text, number, float), key) in all {
        assert_eq!(keys::parts::<(String, i64, f64)>(&key), Some((text.to_string(), number, float)));
    }
}

#[test]
fn other_parts_are_not_read() {
    assert_eq!(keys::parts::<u64>(b"1234567"), None);
    assert_eq!(keys::parts::<u64>(b"123456789"), None);
    assert_eq!(keys::parts::<Vec<u8>>(b"a"), None);
    assert_eq!(keys::parts::<Vec<u8>>(b"a\0\x01"), None);
    assert_eq!(keys::parts::<String>(b"\xff\0\0"), None);
    assert!(keys::of(("a\0b", 1u64)).starts_with(&keys::text_start("a\0")));
}

#[test]
fn keys_have_neighbours() {
    assert_eq!((keys::before(b""), keys::behind(b"\xff\xff"), keys::behind(b"")), (None, None, None));
    assert_eq!(
        (keys::before(b"a\0"), keys::behind(b"a\xff"), keys::after(b"a")),
        (Some(b"a".to_vec()), Some(b"b".to_vec()), Ok(Some(b"a\0".to_vec())))
    );
    let below = keys::before(b"b").unwrap();
    assert_eq!((below.len(), below[0], below[63], keys::after(&below)), (64, b'a', 255, Ok(Some(b"b".to_vec()))));
    assert_eq!((keys::after(&[255; 64]), keys::after(&[0; 65])), (Ok(None), Err(bwtree::Error::TooLong)));
}
