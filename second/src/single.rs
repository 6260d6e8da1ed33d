//! One event or question on a record made for it.

use crate::line::{Flight, Line, Moment, Names, Reading, Station};
use crate::line::{FLIGHT, READING, READY, RELAY, ROUNDS, TIME};
use crate::number::{self, decimal};
use crate::script::{word, Event, Reader};
use crate::setup::Setup;

/// The most stations and increments that are read.
const READ: u64 = 16;

/// A record as it was read, and the event or question asked of it.
#[derive(Clone, Debug, PartialEq, Eq)]
pub struct Record {
    pub setup: Setup,
    pub time: u64,
    /// Round, reading, last signed, gathered.
    pub stations: Vec<[u64; 4]>,
    /// The claimed count of messages.
    pub count: u64,
    /// Sender, recipient, round, kind, signers, sent.
    pub messages: Vec<[u64; 6]>,
    /// The kind of the last part, then its numbers (for 1: d and the increments).
    pub last: Vec<u64>,
}

impl Record {
    /// Reads a record whole, or answers 21 to 24.
    pub fn read(bytes: &[u8]) -> Result<Record, u8> {
        let mut reader = Reader::new(bytes);
        let setup = Setup::from_numbers(reader.numbers()?);
        let time = reader.number()?;
        let length = small(reader.number()?)?;
        let stations = (0..length).map(|_| reader.numbers()).collect::<Result<_, u8>>()?;
        let count = reader.number()?;
        let given = count.min(FLIGHT as u64);
        let messages = (0..given).map(|_| reader.numbers()).collect::<Result<_, u8>>()?;
        let kind = reader.number()?;
        let mut last = vec![kind];
        let more = match kind {
            1 => {
                last.push(reader.number()?);
                small(reader.number()?)?
            }
            2 | 3 => 4,
            11 => 1,
            12 => 2,
            13 => 0,
            _ => return Err(24),
        };
        for _ in 0..more {
            last.push(reader.number()?);
        }
        if !reader.at_end() {
            return Err(24);
        }
        Ok(Record { setup, time, stations, count, messages, last })
    }

    pub fn write(&self) -> Vec<u8> {
        let mut numbers = self.setup.numbers().to_vec();
        numbers.extend([self.time, self.stations.len() as u64]);
        numbers.extend(self.stations.iter().flatten());
        numbers.push(self.count);
        numbers.extend(self.messages.iter().flatten());
        numbers.extend(&self.last);
        if self.last[0] == 1 {
            let increments = self.last.len() - 2;
            numbers.insert(numbers.len() - increments, increments as u64);
        }
        let mut bytes = Vec::new();
        for value in numbers {
            number::write(&mut bytes, value);
        }
        bytes
    }

    pub fn from_line(line: &Line, last: Vec<u64>) -> Record {
        let mut record = Record {
            setup: line.setup,
            time: 0,
            stations: Vec::new(),
            count: 0,
            messages: Vec::new(),
            last,
        };
        record.take(line);
        record
    }

    /// Time, stations and messages as the run now has them.
    fn take(&mut self, line: &Line) {
        let station = |s: &Station| [s.round, s.reading.0, s.signed, s.gathered];
        self.time = line.time.0;
        self.stations = line.stations.iter().map(station).collect();
        let flight = &line.flight;
        let message = |i: usize| {
            let names = flight.names[i];
            let [sender, recipient] = [names.sender(), names.recipient()];
            let signers = flight.signers[i].into();
            [sender, recipient, names.round(), names.kind(), signers, flight.sent[i].0]
        };
        self.messages = (0..flight.len()).map(message).collect();
        self.count = flight.len() as u64;
    }

    /// The run that the record describes, if it breaks nothing that 10 names.
    pub fn line(&self) -> Option<Line> {
        let Setup { n, f, p, .. } = self.setup;
        let lawful = self.setup.rules() == 0
            && self.stations.len() as u64 == n
            && self.time <= TIME.0
            && self.count == self.messages.len() as u64;
        if !lawful {
            return None;
        }
        for (i, &[round, reading, signed, gathered]) in self.stations.iter().enumerate() {
            let fits = if self.setup.sound(i as u64) {
                round <= ROUNDS
                    && reading <= READING.0
                    // k is the last signed round at or past the mark, else one below k is.
                    && (if reading >= (round + 1) * p { signed == round + 1 } else { signed <= round })
                    && signed <= ROUNDS
                    && u64::from(gathered.count_ones()) <= f
                    && gathered >> n == 0
            } else {
                [round, reading, signed, gathered] == [0; 4]
            };
            if !fits {
                return None;
            }
        }
        let mut flight = Flight::new();
        for &[sender, recipient, round, kind, signers, sent] in &self.messages {
            let sound = |i| i < n && self.setup.sound(i);
            if !sound(sender) || !sound(recipient) || sender == recipient {
                return None;
            }
            // A ready's round is at most its sender's last signed, a relay's its own.
            let [own, _, signed, _] = self.stations[sender as usize];
            let fits = (1..=ROUNDS).contains(&round)
                && (kind == READY && round <= signed || kind == RELAY && round <= own)
                && signers != 0
                && signers >> n == 0
                && sent <= self.time;
            if !fits {
                return None;
            }
            flight.push(Names::new(sender, recipient, round, kind), signers, Moment(sent));
        }
        // No two agree in all four names.
        let mut names = flight.names.clone();
        names.sort_unstable();
        if names.windows(2).any(|pair| pair[0] == pair[1]) {
            return None;
        }
        let station = |&[round, reading, signed, gathered]: &[u64; 4]| Station {
            round,
            reading: Reading(reading),
            signed,
            gathered,
        };
        let stations = self.stations.iter().map(station).collect();
        Some(Line::from_parts(self.setup, Moment(self.time), stations, flight))
    }

    /// Plays the last part: the answer, and what a question prints.
    pub fn play(&mut self) -> (u8, String) {
        let line = self.line();
        if let Some(event) = Event::from_numbers(&self.last) {
            let Some(mut line) = line else {
                return (10, String::new());
            };
            let answer = event.play(&mut line);
            self.take(&line);
            return (answer, String::new());
        }
        let line = line.as_ref().ok_or(10);
        let (answer, values) = match self.last[..] {
            [11, station] => {
                let told = line.and_then(|line| line.station(station));
                let (reading, round) = told.unwrap_or_default();
                (told.err(), format!("reading {} round {round}\n", reading.0))
            }
            [12, a, b] => {
                let told = line.and_then(|line| line.lead(a, b));
                (told.err(), format!("lead {}\n", told.unwrap_or(0)))
            }
            _ => {
                let told = line.map(|line| line.flight.len());
                (told.err(), format!("flight {}\n", told.unwrap_or(0)))
            }
        };
        (answer.unwrap_or(0), values)
    }
}

/// L or k too large is 24.
fn small(length: u64) -> Result<u64, u8> {
    if length > READ {
        return Err(24);
    }
    Ok(length)
}

/// Reads a record, plays its last part and prints answer, values and record.
pub fn single(bytes: &[u8], out: &mut Vec<u8>) {
    let mut record = match Record::read(bytes) {
        Ok(record) => record,
        Err(stop) => return word(out, "script", stop.into()),
    };
    let (answer, values) = record.play();
    word(out, "answer", answer.into());
    out.extend_from_slice(values.as_bytes());
    word(out, "time", record.time);
    for station in &record.stations {
        row(out, "station", station);
    }
    for message in &record.messages {
        row(out, "message", message);
    }
}

fn row(out: &mut Vec<u8>, word: &str, values: &[u64]) {
    out.extend_from_slice(word.as_bytes());
    for &value in values {
        out.push(b' ');
        decimal(out, value);
    }
    out.push(b'\n');
}
