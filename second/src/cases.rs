//! Cases written by hand: a record and one event or question, or a script, each with its answer.

use crate::make::encode;
use crate::pack;
use crate::script::rehearse;
use crate::setup::Setup;
use crate::single::Record;
use std::collections::HashMap;

/// The cases of a text, packed; or the first that can't be read or has another answer. The form of
/// the text is said where the cases are, in `crates/replay/cases.txt`.
pub fn cases(text: &str) -> Result<Vec<u8>, String> {
    let mut records = HashMap::from([("empty", empty())]);
    let mut out = Vec::new();
    let mut open = None;
    for line in text.lines().filter(|line| !line.is_empty() && !line.starts_with('#')) {
        let unread = || format!("{line}: can't be read");
        if let Some(case) = line.strip_prefix("    ") {
            let (title, answer) = open.take().ok_or_else(unread)?;
            let (kind, bytes, told) = played(&records, case).ok_or_else(unread)?;
            if !told.iter().any(|told| told == answer) {
                return Err(format!("{title}: {answer}, and not {}", told.join(" or ")));
            }
            pack::add(&mut out, kind, &bytes);
        } else if open.is_some() {
            return Err(unread());
        } else if let Some(named) = line.strip_prefix("record ") {
            let (name, changes) = named.split_once(" is ").ok_or_else(unread)?;
            let record = changed(&records, changes).ok_or_else(unread)?;
            records.insert(name, record);
        } else {
            open = Some(line.split_once(": ").ok_or_else(unread)?);
        }
    }
    match open {
        Some((title, _)) => Err(format!("{title}: nothing is asked")),
        None => Ok(out),
    }
}

/// One case in bytes, and its answer in the words of a title, of an event for each station.
fn played(records: &HashMap<&str, Record>, case: &str) -> Option<(u8, Vec<u8>, Vec<String>)> {
    let (first, asked) = case.split_once("; ").unwrap_or((case, ""));
    if let Some(setup) = first.strip_prefix("script ") {
        let mut parts = vec![numbers(setup)?];
        for event in asked.split("; ").filter(|event| !event.is_empty()) {
            parts.push(last(event)?);
        }
        let bytes = encode(&parts);
        let told = vec![script_told(&bytes)];
        return Some((pack::SCRIPT, bytes, told));
    }
    let mut record = changed(records, first)?;
    record.last = last(asked)?;
    let bytes = record.write();
    let told = record_told(&Record::read(&bytes).ok()?);
    Some((pack::RECORD, bytes, told))
}

/// The first line of a script, and the answer of each event.
fn script_told(bytes: &[u8]) -> String {
    let mut out = Vec::new();
    rehearse(bytes, &mut out).expect("a Vec takes it");
    let lines = String::from_utf8(out).expect("only ASCII is printed");
    let (first, events) = lines.split_once('\n').expect("there is a first line");
    let mut told = first.to_string();
    for line in events.lines() {
        told += ", ";
        told += line.split(' ').nth(1).unwrap_or(line);
    }
    told
}

/// The answer of a question; or of an event, with what it leaves.
fn record_told(record: &Record) -> Vec<String> {
    let mut after = record.clone();
    let (answer, values) = after.play();
    if !values.is_empty() {
        return vec![format!("{answer}, {}", values.trim_end())];
    }
    if after == *record {
        return vec![format!("{answer}, unchanged")];
    }
    let Record { time, count, .. } = after;
    let station = |(i, [round, reading, ..]): (usize, &[u64; 4])| {
        format!(
            "{answer}, time {time}, station {i} in round {round} at {reading}, in flight {count}"
        )
    };
    after.stations.iter().enumerate().map(station).collect()
}

fn empty() -> Record {
    Record {
        setup: Setup::from_numbers([0; 8]),
        time: 0,
        stations: Vec::new(),
        count: 0,
        messages: Vec::new(),
        last: Vec::new(),
    }
}

/// A named record and what is changed of it.
fn changed(records: &HashMap<&str, Record>, changes: &str) -> Option<Record> {
    let mut changes = changes.split(", ");
    let mut record = records.get(changes.next()?)?.clone();
    for change in changes {
        apply(&mut record, change)?;
    }
    Some(record)
}

fn apply(record: &mut Record, change: &str) -> Option<()> {
    let (word, values) = change.split_once(' ')?;
    let values = numbers(values)?;
    let messages = &mut record.messages;
    match (word, &values[..]) {
        ("setup", setup) => record.setup = Setup::from_numbers(setup.try_into().ok()?),
        ("time", &[time]) => record.time = time,
        ("stations", &[length]) => record.stations.resize(length as usize, [0; 4]),
        ("station", [i, station @ ..]) => {
            *record.stations.get_mut(*i as usize)? = station.try_into().ok()?;
        }
        ("message", message) => messages.push(message.try_into().ok()?),
        ("crowd", &[count]) => messages.extend((0..count).map(crowd)),
        ("first", &[_, _, _, _]) => messages.first_mut()?[..4].copy_from_slice(&values),
        ("last", &[_, _, _, _]) => messages.last_mut()?[..4].copy_from_slice(&values),
        ("count", &[count]) => {
            record.count = count;
            return Some(());
        }
        (word, &[value]) => {
            let place =
                ["n", "f", "r", "T", "D", "A", "P", "mask"].iter().position(|w| *w == word)?;
            let mut numbers = record.setup.numbers();
            numbers[place] = value;
            record.setup = Setup::from_numbers(numbers);
        }
        _ => return None,
    }
    record.count = record.messages.len() as u64;
    Some(())
}

/// Message i of a crowd between stations 0 to 10, of rounds 1 to 5 and both kinds, sent from 9,000
/// to 9,999. No two of 1,024 have the same four names: the sender changes first, then the way to the
/// recipient, then the kind, then the round.
fn crowd(i: u64) -> [u64; 6] {
    let way = 1 + i / 11 % 10;
    [i % 11, (i + way) % 11, 1 + i / 220, i / 110 % 2, 1 + i % 2_047, 9_000 + i % 1_000]
}

/// An event or a question in numbers, its kind first.
fn last(asked: &str) -> Option<Vec<u64>> {
    let (word, values) = asked.split_once(' ').unwrap_or((asked, ""));
    let mut values = numbers(values)?;
    let (kind, length) = match word {
        "advance" => (1, values.len().max(1)),
        "deliver" => (2, 4),
        "send" => (3, 4),
        "reading" => (11, 1),
        "lead" => (12, 2),
        "flight" => (13, 0),
        _ => return None,
    };
    values.insert(0, kind);
    (values.len() == length + 1).then_some(values)
}

/// Numbers between spaces; a colon may stand behind the first.
fn numbers(text: &str) -> Option<Vec<u64>> {
    let mut words = text.split_whitespace();
    let first = words.next().map(|word| word.strip_suffix(':').unwrap_or(word));
    first.into_iter().chain(words).map(|word| word.parse().ok()).collect()
}
