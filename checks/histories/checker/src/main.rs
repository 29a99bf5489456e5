//! Decides whether recorded histories of a tree are linearizable: whether all calls form one sequential history of an ordered map, in which each takes
//! effect between its start and its end, and the tree's last pairs are those that it was closed with. README.md in the folder above says how to use it.
//!
//! `history` reads a history; `claims` turns its replies into conditions on the states of keys; `linearize` searches for an order in which they hold;
//! `judge` puts these together; `faults` makes histories wrong, to test the rest.
mod claims;
mod draws;
#[cfg(test)]
mod exhaustive;
mod faults;
mod history;
mod judge;
mod linearize;
#[cfg(test)]
mod simulate;

use draws::Draws;
use faults::{planted, Lives, FAULTS};
use history::{parse, History, Reply};
use judge::{judge, Judgement};
use std::process::ExitCode;

const USAGE: &str =
    "linearizable check FILE..: 'ok', 'REFUSED', or 'UNDECIDED' for each history; the status is 1 where one is refused, else 3 where one is undecided
linearizable plant SEED COUNT FILE: plants each fault so many times, and checks that it is refused; the status is 1 where one is not";

fn read(path: &str) -> Result<History, String> {
    let text = std::fs::read(path).map_err(|error| error.to_string())?;
    parse(&String::from_utf8_lossy(&text))
}

/// How many calls a history has, how many began while another one was under way, and how many were pages, and refused as full.
fn summary(history: &History) -> String {
    let count = |is_so: fn(&Reply) -> bool| history.calls.iter().filter(|call| is_so(&call.reply)).count();
    let mut moments: Vec<(u64, bool)> = history.calls.iter().flat_map(|call| [(call.start, true), (call.end, false)]).collect();
    moments.sort_unstable();
    let (mut under_way, mut overlapping) = (0, 0);
    for (_, begins) in moments {
        overlapping += usize::from(begins && under_way > 0);
        under_way = if begins { under_way + 1 } else { under_way - 1 };
    }
    let pages = count(|reply| matches!(reply, Reply::Page(..)));
    let full = count(|reply| *reply == Reply::Full);
    format!("{} calls, {overlapping} overlapping, {pages} pages, {full} full, {} pairs", history.calls.len(), history.listing.len())
}

fn check(paths: &[String]) -> ExitCode {
    let (mut refused, mut undecided) = (false, false);
    for path in paths {
        match read(path).map(|history| (judge(&history), summary(&history))) {
            Ok((Judgement::Linearizable, summary)) => println!("ok {path}: {summary}"),
            Ok((Judgement::Undecided(why), summary)) => {
                undecided = true;
                println!("UNDECIDED {path}: {summary}: {why}");
            }
            Ok((Judgement::Refused(why), summary)) => {
                refused = true;
                println!("REFUSED {path}: {summary}: {why}");
            }
            Err(why) => {
                refused = true;
                println!("REFUSED {path}: {why}");
            }
        }
    }
    ExitCode::from(if refused {
        1
    } else if undecided {
        3
    } else {
        0
    })
}

/// Plants each fault in a history, and counts the faulty histories that are accepted.
fn plant(seed: u64, count: usize, path: &str) -> Result<usize, String> {
    let history = read(path)?;
    let (lives, mut draws, mut accepted) = (Lives::of(&history), Draws::new(seed), 0);
    for (what, plant) in FAULTS {
        let faulty: Vec<History> = (0..count).map_while(|_| planted(&lives, plant, &mut draws)).collect();
        let refused = faulty.iter().filter(|faulty| matches!(judge(faulty), Judgement::Refused(_))).count();
        println!("{what}: {refused} of {} refused", faulty.len());
        accepted += faulty.len() - refused;
    }
    Ok(accepted)
}

fn main() -> ExitCode {
    let words: Vec<String> = std::env::args().skip(1).collect();
    match words.iter().map(String::as_str).collect::<Vec<_>>().as_slice() {
        ["check", _, ..] => check(&words[1..]),
        ["plant", seed, count, path] => match (seed.parse(), count.parse()) {
            (Ok(seed), Ok(count)) => match plant(seed, count, path) {
                Ok(accepted) => ExitCode::from(u8::from(accepted > 0)),
                Err(why) => {
                    println!("{path}: {why}");
                    ExitCode::from(2)
                }
            },
            _ => usage(),
        },
        _ => usage(),
    }
}

fn usage() -> ExitCode {
    eprintln!("{USAGE}");
    ExitCode::from(2)
}
