//! Records for `single`: states of good and hostile runs, and such with one field spoilt.

use crate::line::{Line, Names, FLIGHT, INCREMENT, READING, READY, RELAY, ROUNDS, TIME};
use crate::make::{odd, Play, Random};
use crate::pack;
use crate::setup::{Setup, BOUND, PERIOD, STEP};
use crate::single::Record;

/// One record in bytes.
pub fn record(seed: u64, place: u64) -> Vec<u8> {
    let mut random = Random::new(seed, place);
    let hostile = random.percent(50);
    let mut play = Play::new(Random::new(random.next(), 1), hostile);
    for _ in 0..random.below(60) {
        play.step();
    }
    let mut line = play.line.clone();
    match random.below(10) {
        0 | 1 => shift(&mut random, &mut line),
        2 if line.setup.sound_count() > 1 => {
            if let Some(record) = crowded(&mut random, play) {
                return finish(&mut random, record);
            }
        }
        3 => far(&mut random, &mut line),
        4 => apart(&mut random, &mut line),
        _ => {}
    }
    let last = last(&mut random, &line);
    let record = Record::from_line(&line, last);
    finish(&mut random, record)
}

/// Spoils half of the records, and the form of a few.
fn finish(random: &mut Random, mut record: Record) -> Vec<u8> {
    if random.percent(50) {
        spoil(random, &mut record);
    }
    let mut bytes = record.write();
    if random.percent(2) {
        let length = bytes.len() as u64;
        match random.below(4) {
            0 => bytes.truncate(random.below(length) as usize),
            1 => bytes.push(random.next() as u8),
            2 => bytes.insert(random.below(length) as usize, 0x80),
            _ => bytes[random.below(length) as usize] = random.next() as u8,
        }
    }
    bytes
}

/// Moves a run close to the limits of rounds and of real time.
fn shift(random: &mut Random, line: &mut Line) {
    let most = line.stations.iter().map(|s| s.signed.max(s.round)).max().unwrap_or(0);
    let rounds = match random.below(4) {
        0 => random.below(ROUNDS - most),
        1 => ROUNDS - most,
        _ => ROUNDS - most - random.below(3),
    };
    let time = match random.below(4) {
        0 => 0,
        1 => random.below(TIME.0 - line.time.0),
        _ => TIME.0 - line.time.0 - random.below(2 * line.setup.t),
    };
    later(line, rounds, time);
}

/// The same run, so many rounds and so much time later.
fn later(line: &mut Line, rounds: u64, time: u64) {
    let setup = line.setup;
    line.time = line.time.plus(time);
    for (i, station) in line.stations.iter_mut().enumerate() {
        if setup.sound(i as u64) {
            station.round += rounds;
            station.reading = station.reading.plus(rounds * setup.p);
            station.signed += if station.signed > 0 { rounds } else { 0 };
        }
    }
    for (names, sent) in line.flight.names.iter_mut().zip(&mut line.flight.sent) {
        *names =
            Names::new(names.sender(), names.recipient(), names.round() + rounds, names.kind());
        *sent = sent.plus(time);
    }
}

/// A station that waits past its mark, close to the limit of readings.
fn far(random: &mut Random, line: &mut Line) {
    for station in &mut line.stations {
        if station.signed == station.waits() && station.signed > 0 {
            station.reading.0 = READING.0 - random.pick(&[0, 1, 2, line.setup.t]);
        }
    }
}

/// A station some rounds ahead of the others: lawful, though no run comes to it.
fn apart(random: &mut Random, line: &mut Line) {
    let (setup, ahead) = (line.setup, random.between(1, 2));
    let sound: Vec<u64> = (0..setup.n).filter(|&i| setup.sound(i)).collect();
    let from = random.pick(&sound);
    let station = &mut line.stations[from as usize];
    station.round += ahead;
    station.reading = station.reading.plus(ahead * setup.p);
    station.signed =
        if station.reading >= station.mark(setup.p) { station.waits() } else { station.round };
    let (round, signed) = (station.round, station.signed);
    for to in sound {
        let waits = line.stations[to as usize].waits();
        let kind = random.below(2);
        let top = if kind == READY { signed } else { round };
        let names = Names::new(from, to, random.pick(&[waits, waits + 1, top]).min(top), kind);
        if to != from && !line.flight.names.contains(&names) {
            line.flight.push(names, random.between(1, (1 << setup.n) - 1), line.time);
        }
    }
}

/// A flight that the next event fills to the limit or to one more.
fn crowded(random: &mut Random, mut play: Play) -> Option<Record> {
    let mut line = play.line.clone();
    let any = random.percent(30);
    for _ in 0..400 {
        line = play.line.clone();
        play.step();
        if any || play.line.flight.len() > line.flight.len() || play.line.starts > line.starts {
            break;
        }
    }
    let mut last = play.parts.pop()?;
    let grown = play.line.flight.len() as i64 - line.flight.len() as i64;
    let goal = match random.below(4) {
        0 => FLIGHT as i64 - random.below(3) as i64,
        1 => FLIGHT as i64,
        _ => FLIGHT as i64 - grown + random.below(3) as i64 - 1,
    };
    let goal = goal.min(FLIGHT as i64) as usize;
    let rounds = random.between(600, 900);
    later(&mut line, rounds, random.pick(&[0, 5_000]));
    if last[0] != 1 && last[3] <= ROUNDS - rounds {
        last[3] += rounds;
    }
    let setup = line.setup;
    let mut tries = 0;
    while line.flight.len() < goal && tries < 100_000 {
        tries += 1;
        let (from, to) = (random.below(setup.n), random.below(setup.n));
        let station = &line.stations[from as usize];
        let kind = random.below(2);
        let top = if kind == READY { station.signed } else { station.round };
        if from == to || !setup.sound(from) || !setup.sound(to) || top == 0 {
            continue;
        }
        let names = Names::new(from, to, random.between(1, top), kind);
        if line.flight.names.contains(&names) {
            continue;
        }
        // Late enough that the advance which the play found is not held up.
        let sent = line.time;
        line.flight.push(names, random.between(1, (1 << setup.n) - 1), sent);
    }
    let mut record = Record::from_line(&line, last);
    if record.messages.len() == FLIGHT && random.percent(30) {
        record.count = random.pick(&[1_025, 2_000, 1 << 32, u64::MAX]);
    }
    Some(record)
}

/// An event or a question of any kind.
fn last(random: &mut Random, line: &Line) -> Vec<u64> {
    let setup = line.setup;
    let station = |random: &mut Random| match random.below(8) {
        0 => random.pick(&[setup.n, setup.n + 1, 12, 16, 64, u64::MAX]),
        _ => random.below(setup.n),
    };
    match random.below(12) {
        0 => vec![11, station(random)],
        1 => vec![12, station(random), station(random)],
        2 => vec![13],
        kind => {
            let mut play = Play::of(Random::new(random.next(), 2), line.clone(), 90);
            match kind {
                3 | 4 => play.attempt(),
                5..=7 => {
                    play.step();
                    play.parts.remove(0)
                }
                _ => play.peaceful(),
            }
        }
    }
}

/// Spoils one field, with a value at one side of its limits.
fn spoil(random: &mut Random, record: &mut Record) {
    let Setup { n, f, t, a, p, faulty, .. } = record.setup;
    let table = record.stations.len() as u64;
    let count = record.messages.len() as u64;
    let marked = if faulty == 0 { n } else { random.member(faulty) };
    match random.below(11) {
        0 | 1 => {
            let mut numbers = record.setup.numbers();
            let place = random.below(8) as usize;
            let value = numbers[place];
            let limits: &[u64] = match place {
                0 => &[0, 1, 12, 13, n - 1, n + 1],
                1 => &[(n - 1) / 2, (n - 1) / 2 + 1, f + 1, 1 << 63],
                2 => &[0, 1, 100, 101],
                3 | 4 => &[0, 1, BOUND, BOUND + 1],
                5 => &[0, 1, STEP, STEP + 1],
                6 => &[0, 1, a, a + t, PERIOD, PERIOD + 1],
                _ => &[0, 1 << n, faulty << 1, (1 << f) - 1, (1 << (f + 1)) - 1],
            };
            numbers[place] = match random.below(8) {
                0 => value.wrapping_sub(1),
                1 => value + 1,
                2 => u64::MAX,
                _ => random.pick(limits),
            };
            record.setup = Setup::from_numbers(numbers);
        }
        2 => {
            let newest = record.messages.iter().map(|m| m[5]).max().unwrap_or(0);
            record.time = random.pick(&[
                newest,
                newest.wrapping_sub(1),
                record.time + t,
                record.time + t + 1,
                TIME.0 - 1,
                TIME.0,
                TIME.0 + 1,
                u64::MAX,
            ]);
        }
        3..=5 => {
            let i = random.below(table) as usize;
            let place = random.below(4) as usize;
            let [round, reading, signed, gathered] = record.stations[i];
            let mark = (round + 1) * p;
            let value = record.stations[i][place];
            let bits = |count: u64| (1u64 << count) - 1;
            let limits: &[u64] = match place {
                0 => &[0, round + 1, ROUNDS, ROUNDS + 1],
                1 => &[0, 1, mark - 1, mark, mark + 1, READING.0, READING.0 + 1, reading + 1],
                2 => &[0, round, round + 1, round + 2, ROUNDS, ROUNDS + 1, signed + 1],
                _ => &[0, bits(f), bits(f + 1), 1 << (n - 1), 1 << n, gathered << 1, 1 << 16],
            };
            record.stations[i][place] = match random.below(10) {
                0 => value.wrapping_sub(1),
                1 => u64::MAX,
                _ => random.pick(limits),
            };
        }
        6 | 7 if count > 0 => {
            let i = random.below(count) as usize;
            let place = random.below(7) as usize;
            if place == 6 {
                // No two agree in all four names.
                let other = record.messages[random.below(count) as usize];
                record.messages[i][..4].copy_from_slice(&other[..4]);
                return;
            }
            let [sender, recipient, round, ..] = record.messages[i];
            let [own, _, signed, _] = record.stations[sender as usize];
            let limits: &[u64] = match place {
                0 => &[recipient, n - 1, n, 12, 16, marked],
                1 => &[sender, n - 1, n, 12, 16, marked],
                2 => {
                    &[0, 1, own, own + 1, signed, signed + 1, ROUNDS, ROUNDS + 1, round + (1 << 20)]
                }
                3 => &[READY, RELAY, 2],
                4 => &[0, 1, (1 << n) - 1, 1 << n, 1 << 16],
                _ => &[0, record.time, record.time + 1, record.time.saturating_sub(t + 1), TIME.0],
            };
            record.messages[i][place] = match random.below(10) {
                0 => u64::MAX,
                1 => random.below(n),
                _ => random.pick(limits),
            };
        }
        8 => {
            // A round it may not sign is the next: its mark is never reached.
            let i = random.below(table) as usize;
            let end = (ROUNDS + 1) * p;
            record.stations[i] = random.pick(&[
                [ROUNDS, end, ROUNDS + 1, 0],
                [ROUNDS, end - 1, ROUNDS, 0],
                [ROUNDS, end - 1, ROUNDS + 1, 0],
                [ROUNDS - 1, end - p, ROUNDS, 0],
            ]);
        }
        9 => {
            // a lent table that has not exactly n stations
            let length = random.pick(&[0, table - 1, table - 1, table + 1, table + 1, 16, 17]);
            record.stations.resize(length as usize, [0, random.below(2) * a, 0, 0]);
        }
        _ => {
            let end = record.last.len() as u64;
            if record.last[0] == 1 && random.percent(15) {
                // not n increments
                let length = random.pick(&[0, n - 1, n - 1, n + 1, n + 1, 16, 17]);
                let increment = random.pick(&[0, record.last[1], INCREMENT]);
                record.last.resize(2 + length as usize, increment);
            } else if random.percent(5) {
                // an unknown last part
                record.last = vec![random.pick(&[0, 4, 10, 14, u64::MAX])];
            } else if end > 1 {
                let place = random.between(1, end - 1) as usize;
                record.last[place] = odd(random, n, record.last[place]);
            }
        }
    }
}

/// COUNT records, packed.
pub fn records(seed: u64, count: u64) -> Vec<u8> {
    let mut out = Vec::new();
    for place in 1..=count {
        pack::add(&mut out, pack::RECORD, &record(seed, place));
    }
    out
}
