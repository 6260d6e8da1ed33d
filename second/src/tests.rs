//! Document 01's values, forms, slips and sizes, and the makers' own promises.

use crate::bench;
use crate::cases::cases;
use crate::check::{check, Watch};
use crate::line::{Line, Reading, READY, RELAY};
use crate::make::{self, Play, Random};
use crate::number;
use crate::pack::{self, pieces, replay};
use crate::records;
use crate::script::{rehearse, Event, LARGEST};
use crate::setup::Setup;
use crate::single::{single, Record};

const SCRIPT: &str = "03 01 00 02 02 04 07 04 04 05 00  01 02 02 02 00  01 03 03 03 00  \
    03 02 00 01 01  03 02 01 01 04  02 01 00 01 01  01 03 03 03 00  02 01 00 01 00  01 01 01 01 00";

const PRINTED: &str = "setup 0
1 0 2 0 0 -
2 14 2 0 0 -
3 18 2 0 0 -
4 0 2 0 1 -
5 0 2 1 1 -
6 15 2 1 1 -
7 0 2 1 1 -
8 0 3 1 1 -
";

const BASE: Setup =
    Setup { n: 4, f: 1, r: 1, t: 2_000, d: 2_201, a: 4_202, p: 1_000_000, faulty: 0 };

fn hex(text: &str) -> Vec<u8> {
    text.split_whitespace().map(|byte| u8::from_str_radix(byte, 16).unwrap()).collect()
}

fn played(bytes: &[u8]) -> String {
    let mut out = Vec::new();
    rehearse(bytes, &mut out).unwrap();
    String::from_utf8(out).unwrap()
}

fn answered(setup: Setup, first: u64) -> u8 {
    setup.check(&vec![first; setup.n as usize])
}

fn script(setup: Setup, first: &[u64], events: &[&[u64]]) -> Vec<u8> {
    let mut parts = vec![setup.numbers().to_vec(), first.to_vec()];
    parts.extend(events.iter().map(|event| event.to_vec()));
    make::encode(&parts)
}

/// Answers of the events of a script, without the setup's.
fn answers(bytes: &[u8]) -> Vec<u8> {
    let told = played(bytes);
    told.lines().skip(1).map(|line| line.split(' ').nth(1).unwrap().parse().unwrap()).collect()
}

fn asked(numbers: &[u64]) -> String {
    let bytes = make::encode(&[numbers.to_vec()]);
    let mut out = Vec::new();
    single(&bytes, &mut out);
    String::from_utf8(out).unwrap()
}

#[test]
fn one_rehearsal_in_full() {
    assert_eq!(played(&hex(SCRIPT)), PRINTED);
}

#[test]
fn values_of_the_setup() {
    assert_eq!(answered(BASE, 4_202), 0);
    assert_eq!(answered(Setup { d: 2_200, ..BASE }, 4_202), 7);
    assert_eq!(answered(Setup { a: 4_201, ..BASE }, 4_201), 6);
    assert_eq!(answered(Setup { p: 6_203, ..BASE }, 4_202), 0);
    assert_eq!(answered(Setup { p: 6_202, ..BASE }, 4_202), 5);
    assert_eq!(answered(Setup { d: 2_200, a: 4_200, ..BASE }, 4_200), 6);
    assert_eq!(answered(BASE, 6_202), 0);
    assert_eq!(answered(BASE, 6_203), 8);
    assert_eq!(BASE.check(&[4_202, 4_202, 6_202, 4_202]), 0);
    assert_eq!(BASE.check(&[4_202, 4_202, 6_203, 4_202]), 8);
    assert_eq!(BASE.check(&[4_202, 4_201, 4_202, 4_202]), 8);
    assert_eq!(BASE.check(&[4_202; 3]), 8);
    assert_eq!(BASE.check(&[4_202; 5]), 8);
    assert_eq!(answered(Setup { n: 2, ..BASE }, 4_202), 2);
    assert_eq!(answered(Setup { n: 13, ..BASE }, 4_202), 1);
    assert_eq!(answered(Setup { n: 0, ..BASE }, 4_202), 1);
    assert_eq!(answered(Setup { n: 1, f: 0, ..BASE }, 4_202), 0);
}

#[test]
fn limits_of_the_setup_come_first() {
    for f in [2, 1 << 63, u64::MAX] {
        assert_eq!(answered(Setup { f, ..BASE }, 4_202), 2);
    }
    assert_eq!(answered(Setup { r: 101, ..BASE }, 4_202), 3);
    for wrong in [0, 1_000_001, 1 << 60, u64::MAX] {
        assert_eq!(answered(Setup { t: wrong, ..BASE }, 4_202), 3);
        assert_eq!(answered(Setup { d: wrong, ..BASE }, 4_202), 3);
    }
    for wrong in [0, 10_000_001, u64::MAX] {
        assert_eq!(answered(Setup { a: wrong, ..BASE }, 4_202), 3);
    }
    for wrong in [0, 100_000_001, u64::MAX] {
        assert_eq!(answered(Setup { p: wrong, ..BASE }, 4_202), 3);
    }
    for faulty in [16, 3, u64::MAX] {
        assert_eq!(answered(Setup { faulty, ..BASE }, 4_202), 4);
    }
    let faulty = Setup { faulty: 4, ..BASE };
    assert_eq!(faulty.check(&[4_202, 4_202, 0, 4_202]), 0);
    assert_eq!(faulty.check(&[4_202, 4_202, 4_202, 4_202]), 8);
    // All products at their largest stay in the word.
    let large = Setup {
        n: 12,
        f: 0,
        r: 100,
        t: 1_000_000,
        d: 1_000_000,
        a: 10_000_000,
        p: 100_000_000,
        faulty: 0,
    };
    assert_eq!(answered(large, 10_000_000), 7);
    assert_eq!(answered(Setup { r: 0, ..large }, 11_000_000), 0);
}

#[test]
fn a_station_alone_starts_each_round_as_it_signs() {
    let setup = Setup { n: 1, f: 0, ..BASE };
    let event: &[u64] = &[1, 995_798, 995_798];
    let told = played(&script(setup, &[4_202], &[event, event]));
    assert_eq!(told, "setup 0\n1 0 995798 1\n2 0 1991596 2\n");
}

#[test]
fn the_drift_rule() {
    let advance = |d: u64, i: u64| Line::fresh(BASE, &[4_202; 4]).advance(d, &[d, d, i, d]);
    assert_eq!(advance(10_000, 10_000), 0);
    assert_eq!(advance(10_000, 10_001), 0);
    assert_eq!(advance(10_000, 9_999), 13);
    assert_eq!(advance(10_000, 10_002), 13);
    assert_eq!([advance(1, 0), advance(1, 1), advance(1, 2)], [13, 0, 13]);
}

#[test]
fn forms_of_numbers() {
    let forms = [
        (0, "00"),
        (127, "7F"),
        (128, "80 01"),
        (16_384, "80 80 01"),
        (u64::MAX, "FF FF FF FF FF FF FF FF FF 01"),
        (1 << 63, "80 80 80 80 80 80 80 80 80 01"),
    ];
    for (value, form) in forms {
        let bytes = hex(form);
        let mut out = Vec::new();
        number::write(&mut out, value);
        assert_eq!(out, bytes);
        assert_eq!(number::read(&bytes, 0), Ok((value, bytes.len())));
        assert_eq!(number::read(&bytes[..bytes.len() - 1], 0), Err(21));
    }
    let read = |form| number::read(&hex(form), 0);
    assert_eq!(read("80 00"), Err(22));
    assert_eq!(read("80"), Err(21));
    assert_eq!(read(""), Err(21));
    assert_eq!(read("FF 80 00"), Err(22));
    assert_eq!(read("FF FF FF FF FF FF FF FF FF 00"), Err(22));
    assert_eq!(read("FF FF FF FF FF FF FF FF FF 02"), Err(23));
    assert_eq!(read("80 80 80 80 80 80 80 80 80 80"), Err(23));
    assert_eq!(read("00 80"), Ok((0, 1)));
}

#[test]
fn setups_that_stop_or_are_refused() {
    let whole = hex(SCRIPT);
    for length in 0..11 {
        assert_eq!(played(&whole[..length]), "script 21\n");
    }
    assert_eq!(played(&whole[..11]), "setup 0\n");
    assert_eq!(played(&[0x80]), "script 21\n");
    assert_eq!(played(&[0x80, 0]), "script 22\n");
    assert_eq!(played(&[0]), "setup 1\n");
    assert_eq!(played(&[13]), "setup 1\n");
    assert_eq!(played(&[13, 0x80, 0]), "setup 1\n");
    assert_eq!(played(&[2, 1]), "script 21\n");
    assert_eq!(played(&[0xFF; 10]), "script 23\n");
    // A refused setup ends the program; what follows is not read.
    let mut refused = whole.clone();
    refused[1] = 2;
    assert_eq!(played(&refused), "setup 2\n");
    refused[10] = 0x80;
    refused[11] = 0;
    assert_eq!(played(&refused), "script 22\n");
}

#[test]
fn events_that_stop() {
    let mut bytes = hex(SCRIPT);
    bytes.truncate(16);
    for (more, stop) in
        [("00", 24), ("04", 24), ("80", 21), ("81 00", 22), ("01", 21), ("02 01 00 01", 21)]
    {
        let mut bytes = bytes.clone();
        bytes.extend(hex(more));
        assert_eq!(played(&bytes), format!("setup 0\n1 0 2 0 0 -\nscript {stop}\n"));
    }
}

#[test]
fn sizes() {
    let mut bytes = hex(SCRIPT);
    bytes.truncate(11);
    while bytes.len() < LARGEST {
        bytes.extend([2, 1, 0, 1, 0]);
    }
    assert_eq!(bytes.len(), 65_536);
    let told = played(&bytes);
    assert_eq!(told.lines().count(), 1 + 13_105);
    assert!(told.ends_with("\n13105 16 0 0 0 -\n"));
    bytes.push(2);
    assert_eq!(played(&bytes), "script 26\n");
}

#[test]
fn distinct_signers_are_counted() {
    // One faulty station sends twice: no start.
    let mut bytes = hex(SCRIPT);
    bytes.truncate(11);
    bytes.extend(hex("03 02 00 01 04  03 02 00 01 04"));
    assert_eq!(played(&bytes), "setup 0\n1 0 0 0 0 -\n2 0 0 0 0 -\n");
}

#[test]
fn a_start_by_ones_own_signature_relays() {
    let setup = Setup { n: 3, f: 1, r: 0, t: 2, d: 2, a: 4, p: 7, faulty: 4 };
    let mut line = Line::fresh(setup, &[4, 4, 0]);
    assert_eq!(line.faulty_send(2, 0, 1, 4), 0);
    assert_eq!(line.stations[0].gathered, 4);
    assert_eq!(line.advance(3, &[3, 3, 0]), 0);
    let station = line.stations[0];
    assert_eq!(
        (station.round, station.reading, station.signed, station.gathered),
        (1, Reading(11), 1, 0)
    );
    // Station 0's ready, then its relay of both signatures, then station 1's ready.
    let told: Vec<_> = line
        .flight
        .names
        .iter()
        .map(|m| (m.sender(), m.recipient(), m.round(), m.kind()))
        .collect();
    assert_eq!(told, [(0, 1, 1, READY), (0, 1, 1, RELAY), (1, 0, 1, READY)]);
    assert_eq!(line.flight.signers, [1, 5, 2]);
    // The place of a delivered message is taken by the last; the new relay goes to the end.
    assert_eq!(line.deliver(0, 1, 1, READY), 0);
    assert_eq!(line.stations[1].round, 1);
    let told: Vec<_> = line.flight.names.iter().map(|m| (m.sender(), m.kind())).collect();
    assert_eq!(told, [(1, READY), (0, RELAY), (1, RELAY)]);
    assert_eq!(line.flight.signers, [2, 5, 3]);
    // Nothing is held of the last round: one signature of the next is not enough.
    assert_eq!(line.faulty_send(2, 1, 2, 4), 0);
    assert_eq!((line.stations[1].round, line.stations[1].gathered), (1, 4));
}

#[test]
fn landing_on_a_mark_and_on_the_last_moment() {
    let setup = Setup { n: 3, f: 1, r: 0, t: 2, d: 2, a: 4, p: 7, faulty: 4 };
    let mut line = Line::fresh(setup, &[4, 5, 0]);
    assert_eq!(line.advance(3, &[3, 3, 0]), 14);
    assert_eq!(line.advance(2, &[2, 2, 0]), 0);
    assert_eq!(line.stations[1].signed, 1);
    assert_eq!(line.advance(1, &[1, 1, 0]), 0);
    assert_eq!(line.stations[0].signed, 1);
    // The ready of station 1 was sent at 2: time 4 is allowed, 5 is not.
    assert_eq!(line.advance(2, &[2, 2, 0]), 15);
    assert_eq!(line.advance(1, &[1, 1, 0]), 0);
    assert_eq!(line.advance(1, &[1, 1, 0]), 15);
}

#[test]
fn numbers_of_refused_events() {
    let setup = Setup { n: 3, f: 1, r: 0, t: 2, d: 2, a: 4, p: 7, faulty: 4 };
    let far = u64::MAX;
    let events: &[(&[u64], u8)] = &[
        (&[1, 0, 0, 0, 0], 11),
        (&[1, 100_000_001, 1, 1, 0], 11),
        (&[1, 1, 1, 1, 1], 11),
        (&[1, 1, 200_000_001, 1, 0], 11),
        (&[1, far, 1, 1, 0], 11),
        (&[1, 1, 200_000_000, 1, 0], 13),
        (&[1, 1, 1, 0, 0], 13),
        (&[1, 100_000_000, 100_000_000, 100_000_000, 0], 14),
        (&[2, 3, 0, 1, 0], 11),
        (&[2, 0, 3, 1, 0], 11),
        (&[2, 0, 0, 1, 0], 11),
        (&[2, 0, 1, 0, 0], 11),
        (&[2, 0, 1, 1_000_001, 0], 11),
        (&[2, 0, 1, 1, 2], 11),
        (&[2, 0, 2, 1, 0], 11),
        (&[2, far, 1, 1, 0], 11),
        (&[2, 0, 1, 1_000_000, 1], 16),
        (&[2, 2, 1, 1, 0], 16),
        (&[3, 2, 0, 1, 0], 11),
        (&[3, 2, 0, 1, 8], 11),
        (&[3, 2, 0, 1, far], 11),
        (&[3, 2, 2, 1, 4], 11),
        (&[3, 0, 1, 1, 4], 17),
        (&[3, 0, 1, 9, 4], 17),
        (&[3, 2, 0, 1, 1], 18),
        (&[3, 2, 0, 1, 7], 18),
        (&[3, 2, 0, 2, 7], 0),
        (&[3, 2, 0, 1_000_000, 7], 0),
        (&[3, 2, 0, 1, 4], 0),
    ];
    let numbers: Vec<&[u64]> = events.iter().map(|event| event.0).collect();
    let expected: Vec<u8> = events.iter().map(|event| event.1).collect();
    assert_eq!(answers(&script(setup, &[4, 5, 0], &numbers)), expected);
}

/// n 3, f 1, r 0, T 2, D 2, A 4, P 7 with station 2 faulty, as in the rehearsal.
const LENT: [u64; 8] = [3, 1, 0, 2, 2, 4, 7, 4];

fn lent(time: u64, stations: &[[u64; 4]], messages: &[[u64; 6]], last: &[u64]) -> Vec<u64> {
    let mut numbers = LENT.to_vec();
    numbers.extend([time, stations.len() as u64]);
    numbers.extend(stations.iter().flatten());
    numbers.push(messages.len() as u64);
    numbers.extend(messages.iter().flatten());
    numbers.extend(last);
    numbers
}

#[test]
fn single_events_and_questions() {
    let table = [[0, 6, 0, 0], [0, 7, 1, 2], [0; 4]];
    let flight = [[1, 0, 1, 0, 2, 2]];
    let rest = "time 2\nstation 0 6 0 0\nstation 0 7 1 2\nstation 0 0 0 0\nmessage 1 0 1 0 2 2\n";
    let ask = |last: &[u64]| asked(&lent(2, &table, &flight, last));
    assert_eq!(ask(&[11, 1]), format!("answer 0\nreading 7 round 0\n{rest}"));
    assert_eq!(ask(&[11, 2]), format!("answer 31\nreading 0 round 0\n{rest}"));
    assert_eq!(ask(&[12, 0, 1]), format!("answer 0\nlead -1\n{rest}"));
    assert_eq!(ask(&[12, 1, 0]), format!("answer 0\nlead 1\n{rest}"));
    assert_eq!(ask(&[12, 1, 3]), format!("answer 31\nlead 0\n{rest}"));
    assert_eq!(ask(&[13]), format!("answer 0\nflight 1\n{rest}"));
    assert_eq!(ask(&[3, 2, 0, 1, 1]), format!("answer 18\n{rest}"));
    assert_eq!(ask(&[1, 1, 2, 1, 1]), format!("answer 11\n{rest}"));
    assert_eq!(
        ask(&[3, 2, 1, 1, 4]),
        "answer 0\ntime 2\nstation 0 6 0 0\nstation 1 11 1 0\nstation 0 0 0 0\n\
         message 1 0 1 0 2 2\nmessage 1 0 1 1 6 2\n"
    );
    assert_eq!(
        ask(&[1, 1, 3, 1, 1, 0]),
        "answer 0\ntime 3\nstation 0 7 1 1\nstation 0 8 1 2\nstation 0 0 0 0\n\
         message 1 0 1 0 2 2\nmessage 0 1 1 0 1 3\n"
    );
    let apart = [[0, 7, 1, 1], [1, 11, 1, 0], [0; 4]];
    assert!(asked(&lent(2, &apart, &[], &[12, 0, 1])).starts_with("answer 32\nlead 0\ntime 2\n"));
    // What cannot be read whole, and what is left over.
    let numbers = lent(2, &table, &flight, &[13]);
    assert_eq!(asked(&numbers[..numbers.len() - 1]), "script 21\n");
    assert_eq!(ask(&[13, 0]), "script 24\n");
    assert_eq!(ask(&[14]), "script 24\n");
    assert_eq!(ask(&[1, 1, 17]), "script 24\n");
    assert_eq!(asked(&[&LENT[..], &[0, 17]].concat()), "script 24\n");
}

#[test]
fn records_that_break_a_rule() {
    let table = [[1, 12, 1, 0], [1, 14, 2, 2], [0; 4]];
    let flight = [[1, 0, 2, 0, 2, 9], [1, 0, 1, 1, 3, 8]];
    let answer = |time, table: &[[u64; 4]], flight: &[[u64; 6]]| {
        let told = asked(&lent(time, table, flight, &[13]));
        told.lines().next().unwrap().to_string()
    };
    assert_eq!(answer(9, &table, &flight), "answer 0");
    assert_eq!(answer(100_000_000_000_000, &table, &flight), "answer 0");
    assert_eq!(answer(100_000_000_000_001, &table, &flight), "answer 10");
    assert_eq!(answer(8, &table, &flight), "answer 10");
    assert_eq!(answer(9, &table[..2], &flight), "answer 10");
    assert_eq!(answer(9, &[&table[..], &[[0; 4]]].concat(), &flight), "answer 10");
    let stations = [
        (0, [1, 13, 1, 0], 0),
        (0, [1, 14, 1, 0], 10),
        (0, [1, 14, 2, 0], 0),
        (0, [1, 13, 2, 0], 10),
        (0, [1, 13, 0, 0], 0),
        (0, [1, 0, 0, 0], 0),
        (0, [1, 300_000_000_000_000, 2, 1], 0),
        (0, [1, 300_000_000_000_001, 2, 1], 10),
        (0, [1, 12, 1, 4], 0),
        (0, [1, 12, 1, 3], 10),
        (0, [1, 12, 1, 8], 10),
        (0, [1_000_000, 7_000_006, 1_000_000, 0], 0),
        (0, [1_000_000, 7_000_007, 1_000_001, 0], 10),
        (0, [999_999, 7_000_000, 1_000_000, 0], 0),
        (0, [1_000_001, 12, 1, 0], 10),
        (0, [u64::MAX, 12, 1, 0], 10),
        (2, [0, 0, 0, 1], 10),
        (2, [0, 0, 1, 0], 10),
        (2, [0, 4, 0, 0], 10),
        (2, [1, 0, 0, 0], 10),
    ];
    for (place, station, expected) in stations {
        let mut table = table;
        table[place] = station;
        assert_eq!(answer(9, &table, &flight), format!("answer {expected}"), "{station:?}");
    }
    let messages = [
        ([1, 0, 0, 0, 2, 9], 10),
        ([1, 0, 1, 0, 2, 9], 0),
        ([1, 0, 3, 0, 2, 9], 10),
        ([1, 0, 2, 1, 2, 9], 10),
        ([1, 0, 1, 1, 7, 9], 10),
        ([1, 0, 2, 2, 2, 9], 10),
        ([1, 0, 2, 0, 0, 9], 10),
        ([1, 0, 2, 0, 7, 0], 0),
        ([1, 0, 2, 0, 8, 9], 10),
        ([1, 0, 2, 0, 2, 10], 10),
        ([0, 1, 1, 0, 1, 9], 0),
        ([0, 1, 2, 0, 1, 9], 10),
        ([1, 1, 2, 0, 2, 9], 10),
        ([2, 0, 1, 0, 2, 9], 10),
        ([1, 2, 2, 0, 2, 9], 10),
        ([3, 0, 2, 0, 2, 9], 10),
        ([u64::MAX, 0, 2, 0, 2, 9], 10),
        ([1, u64::MAX, 2, 0, 2, 9], 10),
    ];
    for (message, expected) in messages {
        let told = answer(9, &table, &[message, flight[1]]);
        assert_eq!(told, format!("answer {expected}"), "{message:?}");
    }
}

#[test]
fn limits_that_only_a_record_reaches() {
    let answer = |numbers: Vec<u64>| asked(&numbers).lines().next().unwrap().to_string();
    let last = [1, 1, 3, 1, 1, 0];
    let near = [[1, 12, 1, 0], [1, 12, 1, 0], [0; 4]];
    assert_eq!(answer(lent(99_999_999_999_999, &near, &[], &last)), "answer 0");
    assert_eq!(answer(lent(100_000_000_000_000, &near, &[], &last)), "answer 12");
    let far = |reading| [[1, reading, 2, 0], [1, 12, 1, 0], [0; 4]];
    assert_eq!(answer(lent(0, &far(299_999_999_999_999), &[], &last)), "answer 0");
    assert_eq!(answer(lent(0, &far(300_000_000_000_000), &[], &last)), "answer 12");
    let high = |reading| [[1_000_000, reading, 1, 0], [1, 12, 1, 0], [0; 4]];
    assert_eq!(answer(lent(0, &high(7_000_005), &[], &last)), "answer 0");
    assert_eq!(answer(lent(0, &high(7_000_006), &[], &last)), "answer 12");
    // 1,024 in flight: a landing station's ready is one too many, a delivered message makes room.
    let table = [[900, 6_306, 900, 4], [900, 6_304, 900, 0], [0; 4]];
    let mut flight: Vec<[u64; 6]> = (1..=900).map(|round| [0, 1, round, 0, 1, 5]).collect();
    flight.extend((1..=124).map(|round| [1, 0, round, 1, 3, 5]));
    assert_eq!(answer(lent(5, &table, &flight, &[13])), "answer 0");
    assert_eq!(answer(lent(5, &table, &flight, &last)), "answer 19");
    assert_eq!(answer(lent(5, &table, &flight[1..], &last)), "answer 19");
    assert_eq!(answer(lent(5, &table, &flight[2..], &last)), "answer 0");
    let signed = [[900, 6_307, 901, 1], [900, 6_304, 900, 0], [0; 4]];
    flight[899] = [0, 1, 901, 0, 5, 5];
    assert_eq!(answer(lent(5, &signed, &flight, &[2, 0, 1, 901, 0])), "answer 0");
    assert_eq!(answer(lent(5, &signed, &flight, &[3, 2, 0, 901, 4])), "answer 19");
    assert_eq!(answer(lent(5, &signed, &flight[1..], &[3, 2, 0, 901, 4])), "answer 0");
    // A claimed count over 1,024 is 10 and everything is printed as read.
    let mut numbers = lent(5, &signed, &flight, &[13]);
    numbers[22] = 1_025;
    let told = asked(&numbers);
    assert!(told.starts_with("answer 10\nflight 0\ntime 5\nstation 900 6307 901 1\n"));
    assert_eq!(told.lines().count(), 3 + 3 + 1_024);
}

#[test]
fn good_scripts_are_accepted_and_all_hold() {
    for place in 1..=300 {
        let bytes = make::script(7, place, "good").unwrap();
        let answers = answers(&bytes);
        assert!(answers.len() >= 5 && answers.iter().all(|&answer| answer == 0));
        assert_eq!(check(&bytes), Ok(answers.len() as u64));
    }
}

#[test]
fn scripts_of_every_kind_hold() {
    for kind in ["hostile", "spoilt", "damaged", "mixed", "small"] {
        for place in 1..=200 {
            let bytes = make::script(8, place, kind).unwrap();
            assert!(bytes.len() <= LARGEST);
            check(&bytes).unwrap();
            played(&bytes);
        }
    }
    assert_eq!(make::script(1, 1, "other"), None);
}

type Spoil = fn(Setup) -> Setup;

/// Plays a setup that the rules refuse and tells the first violation.
fn violated(spoil: Spoil, place: u64) -> Option<String> {
    let mut random = Random::new(9, place);
    let setup = spoil(make::setup(&mut random, true));
    assert_ne!(setup.rules(), 0);
    let first = make::first(&mut random, &setup);
    let mut play = Play::of(random, Line::fresh(setup, &first), 40);
    let mut watch = Watch::new();
    for _ in 0..400 {
        let old = play.line.clone();
        let answer = play.step();
        let event = Event::from_numbers(play.parts.last().unwrap()).unwrap();
        if let Err(violation) = watch.event(&old, &event, answer, &play.line) {
            return Some(violation);
        }
    }
    None
}

#[test]
fn setups_off_the_rules_violate_each_sentence() {
    // Without drift the rules are D >= T, A >= D + T and P > A + T: each is missed by one.
    let spoils: [(&str, Spoil); 4] = [
        ("sentence 1", |s| Setup { f: u64::from(s.faulty.count_ones()) - 1, ..s }),
        ("sentence 2", |s| Setup { r: 0, d: s.t, a: 2 * s.t, p: 3 * s.t, ..s }),
        ("sentence 3", |s| Setup { r: 0, d: s.t - 1, ..s }),
        ("sentence 4", |s| Setup { r: 0, d: s.t, a: 2 * s.t - 1, p: 4 * s.t, ..s }),
    ];
    for (sentence, spoil) in spoils {
        let found = (1..=500).filter_map(|place| violated(spoil, place));
        let count = found.filter(|violation| violation.starts_with(sentence)).count();
        println!("{sentence}: {count}");
        assert!(count > 0, "{sentence} is never violated");
    }
}

fn replayed(bytes: &[u8]) -> String {
    let mut out = Vec::new();
    replay(bytes, &mut out).unwrap();
    String::from_utf8(out).unwrap()
}

#[test]
fn records_are_read_back_and_every_answer_is_met() {
    let bytes = records::records(3, 4_000);
    let told = replayed(&bytes);
    for answer in [0, 10, 11, 12, 13, 14, 15, 16, 17, 18, 19, 31, 32] {
        assert!(told.contains(&format!("\nanswer {answer}\n")), "{answer}");
    }
    assert_eq!(pieces(&bytes).count(), 4_000);
    // A record written again has the same bytes.
    let (kind, first) = pieces(&bytes).next().unwrap();
    assert_eq!(kind, pack::RECORD);
    assert_eq!(Record::read(first).unwrap().write(), first);
}

#[test]
fn pieces_are_played_in_order_up_to_one_cut_short() {
    let script = hex(SCRIPT);
    let mut record = Vec::new();
    single(&script, &mut record);
    let record = String::from_utf8(record).unwrap();
    let mut bytes = Vec::new();
    for (kind, piece) in [(0, &script[..]), (1, &script), (2, &script), (0, &[]), (0, &[0])] {
        pack::add(&mut bytes, kind, piece);
    }
    let before = format!("{PRINTED}{record}script 21\n");
    assert_eq!(replayed(&bytes), format!("{before}setup 1\n"));
    for length in bytes.len() - 6..bytes.len() {
        assert_eq!(replayed(&bytes[..length]), before);
    }
    // The longest piece is too large to be played; one byte more ends the file.
    let mut long = Vec::new();
    pack::add(&mut long, 0, &vec![0; pack::LONGEST]);
    assert_eq!(replayed(&[&long[..], &bytes].concat()), format!("script 26\n{before}setup 1\n"));
    long.clear();
    pack::add(&mut long, 0, &vec![0; pack::LONGEST + 1]);
    assert_eq!(replayed(&[&bytes, &long[..], &bytes].concat()), format!("{before}setup 1\n"));
}

#[test]
fn every_answer_occurs_in_the_stored_output() {
    let stored = concat!(env!("CARGO_MANIFEST_DIR"), "/../crates/replay/stdout");
    let told = std::fs::read_to_string(stored).unwrap();
    // What stands before an answer: `setup`, `script`, or the number of an event.
    let answers = |wanted: &[u64], before: fn(&str) -> bool| {
        for answer in wanted.iter().map(u64::to_string) {
            let mut lines = told.lines().map(|line| line.split(' '));
            let met = |mut words: std::str::Split<char>| {
                words.next().is_some_and(before) && words.next() == Some(&answer[..])
            };
            assert!(lines.any(met), "{answer}");
        }
    };
    answers(&[0, 1, 2, 3, 4, 5, 6, 7, 8], |word| word == "setup");
    answers(&[0, 11, 13, 14, 15, 16, 17, 18], |word| word.parse::<u64>().is_ok());
    answers(&[21, 22, 23, 24, 26], |word| word == "script");
}

#[test]
fn scripts_for_measuring() {
    for kind in ["deliveries", "run", "refusals"] {
        let bytes = bench::script(kind, 13_000).unwrap();
        assert!(bytes.len() <= LARGEST);
        check(&bytes).unwrap();
        let answers = answers(&bytes);
        assert_eq!(answers.len(), 13_000);
        let refused: Vec<u8> = answers.into_iter().filter(|&answer| answer != 0).collect();
        match kind {
            "deliveries" => assert!(refused.is_empty()),
            "run" => assert!(refused.contains(&17) && refused.contains(&18)),
            _ => assert_eq!(refused.len(), 12_999),
        }
    }
    assert_eq!(bench::script("other", 1), None);
}

#[test]
fn cases_are_played_and_packed() {
    let text = "# a plan and two stations
record pair is empty, setup 2 0 0 2 2 4 7 0, stations 2, station 0: 0 4 0 0, station 1: 0 5 0 0

to the mark: 0, time 2, station 1 in round 1 at 11, in flight 2
    pair; advance 2: 2 2
past the mark: 14, unchanged
    pair; advance 3: 3 3
n 3: 10, unchanged
    pair, n 3; advance 1: 1 1 1
1025 in flight: 10, flight 0
    pair, crowd 1024, count 1025; flight
lead: 0, lead -1
    pair; lead 0 1
a script: setup 0, 0, 16
    script 2 0 0 2 2 4 7 0 4 5; advance 2: 2 2; deliver 0 1 1 0
";
    let packed = cases(text).unwrap();
    let kinds: Vec<u8> = pieces(&packed).map(|(kind, _)| kind).collect();
    assert_eq!(kinds, [1, 1, 1, 1, 1, 0]);
    let first = pieces(&packed).next().unwrap().1;
    assert_eq!(first, [2, 0, 0, 2, 2, 4, 7, 0, 0, 2, 0, 4, 0, 0, 0, 5, 0, 0, 0, 1, 2, 2, 2, 2]);
    // Another answer, an unknown record, word or event, and a title with nothing below it.
    for (old, new) in [
        ("14, unchanged", "13, unchanged"),
        ("at 11", "at 12"),
        ("setup 0, 0, 16", "setup 0, 0"),
        ("    pair; lead", "    three; lead"),
        ("pair, n 3", "pair, m 3"),
        ("flight\n", "fly\n"),
        ("deliver 0 1 1 0", "deliver 0 1 1"),
        ("    pair; lead 0 1\n", ""),
    ] {
        assert!(text.contains(old) && cases(&text.replacen(old, new, 1)).is_err(), "{old}");
    }
}

/// Twelve stations, ten thousand events: prints the time of each event.
#[test]
#[ignore = "a measure, not a test"]
fn speed() {
    let bytes = bench::script("deliveries", 10_000).unwrap();
    let mut out = Vec::with_capacity(1 << 20);
    let mut best = f64::MAX;
    for _ in 0..200 {
        out.clear();
        let begin = std::time::Instant::now();
        rehearse(&bytes, &mut out).unwrap();
        best = best.min(begin.elapsed().as_nanos() as f64);
    }
    let events = out.iter().filter(|&&byte| byte == b'\n').count() - 1;
    println!("{events} events, {} bytes, {:.1} ns each", bytes.len(), best / events as f64);
}
