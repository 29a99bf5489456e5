//! A recorded history: its calls with their replies and times, and the pairs of the closed tree. README.md in the folder above has the text form.

pub type Bytes = Vec<u8>;
pub type Pair = (Bytes, Bytes);

#[derive(Clone, Debug, PartialEq, Eq)]
pub enum Operation {
    Get,
    Insert(Bytes),
    Upsert(Bytes),
    Delete,
    /// A deletion if the value is this one.
    DeleteIf(Bytes),
    /// Compare-and-set: the expected value, and the new one.
    Swap(Bytes, Bytes),
    /// An addition of a number of eight bytes, the highest first.
    Add(Bytes),
    Tidy,
    Page,
    /// A page backward.
    Back,
}

#[derive(Clone, Debug, PartialEq, Eq)]
pub enum Reply {
    Value(Bytes),
    Absent,
    Inserted,
    Exists(Bytes),
    Set,
    Replaced(Bytes),
    /// An addition replaced this value by the sum.
    Added(Bytes, Bytes),
    Deleted(Bytes),
    Swapped,
    Differs(Bytes),
    Tidied,
    /// Nothing was free for a change: no key was changed.
    Full,
    /// The pairs of a page of either direction, and the key at which the next page continues.
    Page(Vec<Pair>, Option<Bytes>),
}

#[derive(Clone, Debug)]
pub struct Call {
    pub seat: usize,
    /// When it began and ended, by one clock for all threads: no two times of a history are equal.
    pub start: u64,
    pub end: u64,
    pub operation: Operation,
    pub key: Bytes,
    pub reply: Reply,
    /// Its line in the file.
    pub line: usize,
}

#[derive(Clone, Debug, Default)]
pub struct History {
    pub calls: Vec<Call>,
    /// The pairs that the tree handed over when it was closed, after all calls.
    pub listing: Vec<Pair>,
}

/// The sum of two numbers of eight bytes, modulo 2^64; none where one has not eight bytes.
pub fn sum(value: &[u8], number: &[u8]) -> Option<Bytes> {
    let (value, number) = (u64::from_be_bytes(value.try_into().ok()?), u64::from_be_bytes(number.try_into().ok()?));
    Some(value.wrapping_add(number).to_be_bytes().to_vec())
}

/// Bytes as they stand in a file: `x` and two hexadecimal digits for each.
pub fn hex(bytes: &[u8]) -> String {
    bytes.iter().fold(String::from("x"), |text, byte| format!("{text}{byte:02x}"))
}

fn digit(c: u8) -> Option<u8> {
    (c as char).to_digit(16).map(|d| d as u8)
}

fn bytes(word: &str) -> Result<Bytes, String> {
    let digits = word.strip_prefix('x').filter(|d| d.len() % 2 == 0).ok_or_else(|| format!("no bytes: {word}"))?;
    let byte = |two: &[u8]| Some(digit(two[0])? << 4 | digit(two[1])?);
    digits.as_bytes().chunks(2).map(byte).collect::<Option<_>>().ok_or_else(|| format!("no bytes: {word}"))
}

fn number(word: &str) -> Result<u64, String> {
    word.parse().map_err(|_| format!("no number: {word}"))
}

/// The words of a line, from left to right.
struct Words<'a>(std::str::SplitAsciiWhitespace<'a>);

impl<'a> Words<'a> {
    fn word(&mut self) -> Result<&'a str, String> {
        self.0.next().ok_or_else(|| "the line is too short".into())
    }

    fn bytes(&mut self) -> Result<Bytes, String> {
        bytes(self.word()?)
    }

    fn number(&mut self) -> Result<u64, String> {
        number(self.word()?)
    }

    fn pair(&mut self) -> Result<Pair, String> {
        Ok((self.bytes()?, self.bytes()?))
    }

    fn operation(&mut self) -> Result<(Operation, Bytes), String> {
        let (name, key) = (self.word()?, self.bytes()?);
        let operation = match name {
            "get" => Operation::Get,
            "insert" => Operation::Insert(self.bytes()?),
            "upsert" => Operation::Upsert(self.bytes()?),
            "delete" => Operation::Delete,
            "delete_if" => Operation::DeleteIf(self.bytes()?),
            "add" => Operation::Add(self.bytes()?),
            "swap" => Operation::Swap(self.bytes()?, self.bytes()?),
            "tidy" => Operation::Tidy,
            "page" => Operation::Page,
            "back" => Operation::Back,
            _ => return Err(format!("no operation: {name}")),
        };
        Ok((operation, key))
    }

    fn reply(&mut self) -> Result<Reply, String> {
        Ok(match self.word()? {
            "value" => Reply::Value(self.bytes()?),
            "absent" => Reply::Absent,
            "inserted" => Reply::Inserted,
            "exists" => Reply::Exists(self.bytes()?),
            "set" => Reply::Set,
            "replaced" => Reply::Replaced(self.bytes()?),
            "deleted" => Reply::Deleted(self.bytes()?),
            "swapped" => Reply::Swapped,
            "differs" => Reply::Differs(self.bytes()?),
            "tidied" => Reply::Tidied,
            "full" => Reply::Full,
            "pairs" => self.page()?,
            word => return Err(format!("no reply: {word}")),
        })
    }

    fn page(&mut self) -> Result<Reply, String> {
        let mut pairs = Vec::new();
        loop {
            match self.word()? {
                "end" => return Ok(Reply::Page(pairs, None)),
                "next" => return Ok(Reply::Page(pairs, Some(self.bytes()?))),
                key => pairs.push((bytes(key)?, self.bytes()?)),
            }
        }
    }

    fn call(&mut self, line: usize) -> Result<Call, String> {
        let (seat, start, end) = (self.number()? as usize, self.number()?, self.number()?);
        let (operation, key) = self.operation()?;
        let reply = match (&operation, self.reply()?) {
            (Operation::Add(number), Reply::Replaced(old)) => {
                let sum = sum(&old, number).ok_or("an addition without numbers of eight bytes")?;
                Reply::Added(old, sum)
            }
            (_, reply) => reply,
        };
        Ok(Call { seat, start, end, operation, key, reply, line })
    }

    fn over(mut self) -> Result<(), String> {
        self.0.next().map_or(Ok(()), |word| Err(format!("one word too many: {word}")))
    }
}

#[derive(PartialEq)]
enum Part {
    Calls,
    Listing,
    End,
}

/// Adds one line to a history, and returns the part of the file that the next line belongs to.
fn add_line(history: &mut History, part: Part, number: usize, line: &str) -> Result<Part, String> {
    let mut words = Words(line.split_ascii_whitespace());
    let part = match (words.0.next(), part) {
        (None | Some("#"), part) => return Ok(part),
        (Some("call"), Part::Calls) => {
            history.calls.push(words.call(number)?);
            Part::Calls
        }
        (Some("closed"), Part::Calls) => Part::Listing,
        (Some("pair"), Part::Listing) => {
            history.listing.push(words.pair()?);
            Part::Listing
        }
        (Some("end"), Part::Listing) => Part::End,
        (Some(word), _) => return Err(format!("not expected here: {word}")),
    };
    words.over()?;
    Ok(part)
}

/// Reads a history. It is whole: the last line says so.
pub fn parse(text: &str) -> Result<History, String> {
    let mut history = History::default();
    let mut part = Part::Calls;
    for (place, line) in text.lines().enumerate() {
        part = add_line(&mut history, part, place + 1, line).map_err(|why| format!("line {}: {why}", place + 1))?;
    }
    if part == Part::End {
        Ok(history)
    } else {
        Err("the history breaks off".into())
    }
}

fn show_pairs(pairs: &[Pair]) -> String {
    pairs.iter().map(|(key, value)| format!(" {} {}", hex(key), hex(value))).collect()
}

impl std::fmt::Display for Reply {
    fn fmt(&self, f: &mut std::fmt::Formatter) -> std::fmt::Result {
        match self {
            Reply::Value(value) => write!(f, "value {}", hex(value)),
            Reply::Exists(value) => write!(f, "exists {}", hex(value)),
            Reply::Replaced(value) | Reply::Added(value, _) => write!(f, "replaced {}", hex(value)),
            Reply::Deleted(value) => write!(f, "deleted {}", hex(value)),
            Reply::Differs(value) => write!(f, "differs {}", hex(value)),
            Reply::Page(pairs, None) => write!(f, "pairs{} end", show_pairs(pairs)),
            Reply::Page(pairs, Some(next)) => write!(f, "pairs{} next {}", show_pairs(pairs), hex(next)),
            other => f.write_str(&format!("{other:?}").to_lowercase()),
        }
    }
}

/// A call as its line says it.
impl std::fmt::Display for Call {
    fn fmt(&self, f: &mut std::fmt::Formatter) -> std::fmt::Result {
        let (name, values) = match &self.operation {
            Operation::Insert(value) => ("insert", format!(" {}", hex(value))),
            Operation::Upsert(value) => ("upsert", format!(" {}", hex(value))),
            Operation::Swap(expected, value) => ("swap", format!(" {} {}", hex(expected), hex(value))),
            Operation::DeleteIf(expected) => ("delete_if", format!(" {}", hex(expected))),
            Operation::Add(number) => ("add", format!(" {}", hex(number))),
            Operation::Get => ("get", String::new()),
            Operation::Delete => ("delete", String::new()),
            Operation::Tidy => ("tidy", String::new()),
            Operation::Page => ("page", String::new()),
            Operation::Back => ("back", String::new()),
        };
        write!(f, "call {} {} {} {name} {}{values} {}", self.seat, self.start, self.end, hex(&self.key), self.reply)
    }
}

#[cfg(test)]
mod tests {
    use super::*;

    const TEXT: &str = "# a comment\n\
        call 0 1 2 insert x61 x01 inserted\n\
        call 1 3 6 swap x61 x01 x02 swapped\n\
        call 0 4 5 page x pairs x61 x01 next x62\n\
        call 1 7 8 add x62 xffffffffffffffff set\n\
        call 1 9 10 add x62 x0000000000000003 replaced xffffffffffffffff\n\
        call 0 11 12 delete_if x62 x0000000000000002 deleted x0000000000000002\n\
        call 0 13 14 back x63 pairs x61 x02 next x60\n\
        closed\n\
        pair x61 x02\n\
        end\n";

    #[test]
    fn reads_what_it_shows() {
        let history = parse(TEXT).unwrap();
        let shown: String = history.calls.iter().map(|call| format!("{call}\n")).collect();
        assert!(TEXT.contains(&shown) && history.calls.len() == 7);
        assert_eq!(history.calls[4].reply, Reply::Added(vec![255; 8], vec![0, 0, 0, 0, 0, 0, 0, 2]));
        assert_eq!(history.listing, [(b"a".to_vec(), vec![2])]);
        assert_eq!(history.calls[2].reply, Reply::Page(vec![(b"a".to_vec(), vec![1])], Some(b"b".to_vec())));
    }

    #[test]
    fn refuses_what_is_not_whole() {
        for (from, to) in [
            ("end\n", ""),
            ("closed\n", ""),
            ("x01 inserted", "x1 inserted"),
            ("insert ", "inserts "),
            (" next x62", ""),
            ("x0000000000000003", "x03"),
            ("pair x61", "pair"),
        ] {
            assert!(TEXT.contains(from) && parse(&TEXT.replace(from, to)).is_err(), "{from}");
        }
        assert!(parse(&format!("{TEXT}end\n")).is_err());
    }
}
