//! The script reader and the rehearsal.

use crate::line::Line;
use crate::number;
use crate::setup::{Setup, MOST};
use std::io::{self, Write};

/// The largest script that is played.
pub const LARGEST: usize = 65_536;

/// The lent bytes and the place in them.
pub struct Reader<'a> {
    bytes: &'a [u8],
    place: usize,
}

/// What the reading of a setup gives.
pub enum Opening {
    /// 21 to 23: the setup could not be read.
    Stopped(u8),
    /// 1 to 8: it was read and refused.
    Refused(u8),
    Run(Line),
}

/// One event; the increments lie in a buffer of the caller.
#[derive(Clone, Copy, Debug)]
pub enum Event<'b> {
    Advance { d: u64, increments: &'b [u64] },
    Deliver { sender: u64, recipient: u64, round: u64, kind: u64 },
    FaultySend { sender: u64, recipient: u64, round: u64, signers: u64 },
}

impl Event<'_> {
    /// An event from its numbers, the kind first.
    pub fn from_numbers(numbers: &[u64]) -> Option<Event<'_>> {
        match *numbers {
            [1, d, ref increments @ ..] => Some(Event::Advance { d, increments }),
            [2, sender, recipient, round, kind] => {
                Some(Event::Deliver { sender, recipient, round, kind })
            }
            [3, sender, recipient, round, signers] => {
                Some(Event::FaultySend { sender, recipient, round, signers })
            }
            _ => None,
        }
    }

    #[inline]
    pub fn play(&self, line: &mut Line) -> u8 {
        match *self {
            Event::Advance { d, increments } => line.advance(d, increments),
            Event::Deliver { sender, recipient, round, kind } => {
                line.deliver(sender, recipient, round, kind)
            }
            Event::FaultySend { sender, recipient, round, signers } => {
                line.faulty_send(sender, recipient, round, signers)
            }
        }
    }
}

impl<'a> Reader<'a> {
    pub fn new(bytes: &'a [u8]) -> Reader<'a> {
        Reader { bytes, place: 0 }
    }

    pub fn at_end(&self) -> bool {
        self.place == self.bytes.len()
    }

    #[inline]
    pub fn number(&mut self) -> Result<u64, u8> {
        let (value, next) = number::read(self.bytes, self.place)?;
        self.place = next;
        Ok(value)
    }

    #[inline]
    pub fn fill(&mut self, numbers: &mut [u64]) -> Result<(), u8> {
        let mut place = self.place;
        for number in numbers {
            (*number, place) = number::read(self.bytes, place)?;
        }
        self.place = place;
        Ok(())
    }

    #[inline(always)]
    pub fn numbers<const N: usize>(&mut self) -> Result<[u64; N], u8> {
        let mut numbers = [0; N];
        self.fill(&mut numbers)?;
        Ok(numbers)
    }

    /// Reads a setup and makes its run.
    pub fn open(&mut self) -> Opening {
        self.setup().unwrap_or_else(Opening::Stopped)
    }

    fn setup(&mut self) -> Result<Opening, u8> {
        let n = self.number()?;
        // As n gives the length, 1 is answered as soon as n is read.
        if !Setup::stations_fit(n) {
            return Ok(Opening::Refused(1));
        }
        let [f, r, t, d, a, p, faulty] = self.numbers()?;
        let setup = Setup { n, f, r, t, d, a, p, faulty };
        let mut first = [0; MOST];
        let first = &mut first[..n as usize];
        self.fill(first)?;
        Ok(match setup.check(first) {
            0 => Opening::Run(Line::fresh(setup, first)),
            refusal => Opening::Refused(refusal),
        })
    }

    /// The next event, none at the end of the bytes, or 21 to 24.
    #[inline]
    pub fn event<'b>(&mut self, increments: &'b mut [u64]) -> Result<Option<Event<'b>>, u8> {
        if self.at_end() {
            return Ok(None);
        }
        let event = match self.number()? {
            1 => {
                let d = self.number()?;
                self.fill(increments)?;
                Event::Advance { d, increments }
            }
            2 => {
                let [sender, recipient, round, kind] = self.numbers()?;
                Event::Deliver { sender, recipient, round, kind }
            }
            3 => {
                let [sender, recipient, round, signers] = self.numbers()?;
                Event::FaultySend { sender, recipient, round, signers }
            }
            _ => return Err(24),
        };
        Ok(Some(event))
    }
}

/// A word and a number on a line of their own.
pub fn word(out: &mut Vec<u8>, word: &str, value: u64) {
    out.extend_from_slice(word.as_bytes());
    out.push(b' ');
    number::decimal(out, value);
    out.push(b'\n');
}

/// The end of a line: real time and the round of each station.
fn render(tail: &mut Vec<u8>, line: &Line) {
    tail.clear();
    tail.push(b' ');
    number::decimal(tail, line.time.0);
    for (i, station) in line.stations.iter().enumerate() {
        tail.push(b' ');
        if line.setup.sound(i as u64) {
            number::decimal(tail, station.round);
        } else {
            tail.push(b'-');
        }
    }
    tail.push(b'\n');
}

/// Plays a script and prints the rehearsal.
pub fn rehearse(bytes: &[u8], sink: &mut impl Write) -> io::Result<()> {
    const FULL: usize = 1 << 15;
    let mut out = Vec::with_capacity(FULL + 512);
    if bytes.len() > LARGEST {
        word(&mut out, "script", 26);
        return sink.write_all(&out);
    }
    let mut reader = Reader::new(bytes);
    let mut line = match reader.open() {
        Opening::Stopped(stop) => {
            word(&mut out, "script", stop.into());
            return sink.write_all(&out);
        }
        Opening::Refused(refusal) => {
            word(&mut out, "setup", refusal.into());
            return sink.write_all(&out);
        }
        Opening::Run(line) => line,
    };
    word(&mut out, "setup", 0);
    let mut increments = [0; MOST];
    let increments = &mut increments[..line.setup.n as usize];
    // The end of a line changes only with the time or with a start.
    let mut tail = Vec::with_capacity(128);
    let mut rendered = (line.time, line.starts);
    render(&mut tail, &line);
    let mut count = 0;
    loop {
        let event = match reader.event(increments) {
            Ok(Some(event)) => event,
            Ok(None) => break,
            Err(stop) => {
                word(&mut out, "script", stop.into());
                break;
            }
        };
        count += 1;
        let answer = event.play(&mut line);
        if rendered != (line.time, line.starts) {
            rendered = (line.time, line.starts);
            render(&mut tail, &line);
        }
        number::decimal(&mut out, count);
        out.push(b' ');
        number::decimal(&mut out, answer.into());
        out.extend_from_slice(&tail);
        if out.len() > FULL {
            sink.write_all(&out)?;
            out.clear();
        }
    }
    sink.write_all(&out)
}
