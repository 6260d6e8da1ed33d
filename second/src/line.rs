//! The run of the whole line: stations, messages in flight and the three events.

use crate::setup::{Setup, M};

/// Rounds, real time, readings and messages in flight go up to these.
pub const ROUNDS: u64 = 1_000_000;
pub const TIME: Moment = Moment(100_000_000_000_000);
pub const READING: Reading = Reading(300_000_000_000_000);
pub const FLIGHT: usize = 1_024;
/// The limits of d and of an increment.
pub const ADVANCE: u64 = 100_000_000;
pub const INCREMENT: u64 = 200_000_000;

/// The two kinds of message.
pub const READY: u64 = 0;
pub const RELAY: u64 = 1;

/// A moment of real time.
#[derive(Clone, Copy, Debug, Default, PartialEq, Eq, PartialOrd, Ord)]
pub struct Moment(pub u64);

impl Moment {
    #[inline]
    pub fn plus(self, d: u64) -> Moment {
        Moment(self.0 + d)
    }
}

/// A clock reading.
#[derive(Clone, Copy, Debug, Default, PartialEq, Eq, PartialOrd, Ord)]
pub struct Reading(pub u64);

impl Reading {
    #[inline]
    pub fn plus(self, i: u64) -> Reading {
        Reading(self.0 + i)
    }
}

/// A station: its round, its reading, its last signed round, the signers gathered.
#[derive(Clone, Copy, Debug, Default, PartialEq, Eq)]
pub struct Station {
    pub round: u64,
    pub reading: Reading,
    pub signed: u64,
    pub gathered: u64,
}

impl Station {
    /// The round it waits for.
    #[inline]
    pub fn waits(&self) -> u64 {
        self.round + 1
    }

    /// The mark of the round it waits for.
    #[inline]
    pub fn mark(&self, p: u64) -> Reading {
        Reading(self.waits() * p)
    }
}

/// Sender, recipient, round and kind of a message in one word.
#[derive(Clone, Copy, Debug, PartialEq, Eq, PartialOrd, Ord)]
pub struct Names(u32);

impl Names {
    /// The numbers must be in their limits.
    #[inline]
    pub fn new(sender: u64, recipient: u64, round: u64, kind: u64) -> Names {
        Names((sender << 25 | recipient << 21 | kind << 20 | round) as u32)
    }

    pub fn sender(self) -> u64 {
        u64::from(self.0 >> 25)
    }

    pub fn recipient(self) -> u64 {
        u64::from(self.0 >> 21 & 15)
    }

    pub fn kind(self) -> u64 {
        u64::from(self.0 >> 20 & 1)
    }

    pub fn round(self) -> u64 {
        u64::from(self.0 & 0xF_FFFF)
    }

    /// All but the round: below 512.
    #[inline]
    fn without_round(self) -> usize {
        (self.0 >> 20) as usize & 511
    }
}

/// The messages in flight, in the order in which they lie.
#[derive(Clone, Debug, PartialEq, Eq)]
pub struct Flight {
    pub names: Vec<Names>,
    pub signers: Vec<u16>,
    pub sent: Vec<Moment>,
    /// Where a message with these names, whatever its round, was last put.
    hints: Box<[u16; 512]>,
}

impl Flight {
    pub fn new() -> Flight {
        Flight {
            names: Vec::new(),
            signers: Vec::new(),
            sent: Vec::new(),
            hints: Box::new([0; 512]),
        }
    }

    pub fn len(&self) -> usize {
        self.names.len()
    }

    #[inline]
    pub fn push(&mut self, names: Names, signers: u64, sent: Moment) {
        self.hints[names.without_round()] = self.names.len() as u16;
        self.names.push(names);
        self.signers.push(signers as u16);
        self.sent.push(sent);
    }

    /// The hint is most often right; else the search goes through all names.
    #[inline]
    fn find(&self, wanted: Names) -> Option<usize> {
        let hint = self.hints[wanted.without_round()] as usize;
        if self.names.get(hint) == Some(&wanted) {
            return Some(hint);
        }
        self.names.iter().position(|&names| names == wanted)
    }

    /// The place of a delivered message is taken by the last one.
    #[inline]
    fn remove(&mut self, place: usize) {
        self.names.swap_remove(place);
        self.signers.swap_remove(place);
        self.sent.swap_remove(place);
        if let Some(moved) = self.names.get(place) {
            self.hints[moved.without_round()] = place as u16;
        }
    }
}

/// A run.
#[derive(Clone, Debug, PartialEq, Eq)]
pub struct Line {
    pub setup: Setup,
    pub time: Moment,
    pub stations: Vec<Station>,
    pub flight: Flight,
    /// How many starts there were since the run was made.
    pub starts: u64,
    /// Sound stations other than a sound sender.
    others: usize,
}

impl Line {
    /// A fresh run: real time 0, round 0, nothing signed, nothing in flight.
    pub fn fresh(setup: Setup, first: &[u64]) -> Line {
        let station = |&reading| Station { reading: Reading(reading), ..Station::default() };
        Line::from_parts(setup, Moment(0), first.iter().map(station).collect(), Flight::new())
    }

    pub fn from_parts(setup: Setup, time: Moment, stations: Vec<Station>, flight: Flight) -> Line {
        let others = (setup.sound_count() as usize).saturating_sub(1);
        Line { setup, time, stations, flight, starts: 0, others }
    }

    /// Advance by d with one increment per station.
    pub fn advance(&mut self, d: u64, increments: &[u64]) -> u8 {
        let setup = self.setup;
        let s = setup.s();
        let bars = |(i, &inc): (usize, &u64)| inc > INCREMENT || inc != 0 && !setup.sound(i as u64);
        if !(1..=ADVANCE).contains(&d)
            || increments.len() as u64 != setup.n
            || increments.iter().enumerate().any(bars)
        {
            return 11;
        }
        let time = self.time.plus(d);
        let (mut limit, mut drift, mut passed) = (time > TIME, false, false);
        let mut landed = 0u32;
        let mut flight = self.flight.len();
        for (i, (station, &inc)) in self.stations.iter().zip(increments).enumerate() {
            if !setup.sound(i as u64) {
                continue;
            }
            let mark = station.mark(setup.p);
            let reading = station.reading.plus(inc);
            limit |= reading > READING || station.round == ROUNDS && reading >= mark;
            drift |= M * d > s * inc || M * inc > s * d;
            if station.reading < mark {
                passed |= reading > mark;
                if reading == mark {
                    landed |= 1 << i;
                    let starts = self.completes(i, 1 << i);
                    flight += self.others * (1 + usize::from(starts));
                }
            }
        }
        if limit {
            return 12;
        }
        if drift {
            return 13;
        }
        if passed {
            return 14;
        }
        if self.flight.sent.iter().any(|sent| time > sent.plus(setup.t)) {
            return 15;
        }
        if flight > FLIGHT {
            return 19;
        }
        // Readings and time move and those that land sign. A faulty increment is zero.
        self.time = time;
        for (station, &inc) in self.stations.iter_mut().zip(increments) {
            station.reading = station.reading.plus(inc);
        }
        while landed != 0 {
            self.sign(landed.trailing_zeros() as usize);
            landed &= landed - 1;
        }
        0
    }

    /// Deliver a message, named by sender, recipient, round and kind.
    #[inline]
    pub fn deliver(&mut self, sender: u64, recipient: u64, round: u64, kind: u64) -> u8 {
        if self.bars(sender, recipient, round) || kind > RELAY {
            return 11;
        }
        let Some(place) = self.flight.find(Names::new(sender, recipient, round, kind)) else {
            return 16;
        };
        let to = recipient as usize;
        let signers = u64::from(self.flight.signers[place]);
        let waited = self.stations[to].waits() == round;
        if waited && self.completes(to, signers) && self.flight.len() - 1 + self.others > FLIGHT {
            return 19;
        }
        self.flight.remove(place);
        if waited {
            self.gather(to, signers);
        }
        0
    }

    /// A faulty send, gathered at once.
    #[inline]
    pub fn faulty_send(&mut self, sender: u64, recipient: u64, round: u64, signers: u64) -> u8 {
        if self.bars(sender, recipient, round) || signers == 0 || signers >> self.setup.n != 0 {
            return 11;
        }
        if self.setup.sound(sender) {
            return 17;
        }
        let to = recipient as usize;
        // For any other round the message is accepted and nothing changes.
        if self.stations[to].waits() != round {
            return 0;
        }
        let mut needed = signers & !self.setup.faulty;
        while needed != 0 {
            if self.stations[needed.trailing_zeros() as usize].signed != round {
                return 18;
            }
            needed &= needed - 1;
        }
        if self.completes(to, signers) && self.flight.len() + self.others > FLIGHT {
            return 19;
        }
        self.gather(to, signers);
        0
    }

    /// What 11 asks of both ends and of the round.
    #[inline]
    fn bars(&self, sender: u64, recipient: u64, round: u64) -> bool {
        sender >= self.setup.n
            || recipient >= self.setup.n
            || sender == recipient
            || round == 0
            || round > ROUNDS
            || !self.setup.sound(recipient)
    }

    /// Whether a station would hold f + 1 distinct signers with these.
    #[inline]
    fn completes(&self, i: usize, signers: u64) -> bool {
        u64::from((self.stations[i].gathered | signers).count_ones()) > self.setup.f
    }

    /// It signs the round it waits for, sends its signature and counts it.
    fn sign(&mut self, i: usize) {
        let round = self.stations[i].waits();
        self.stations[i].signed = round;
        self.send(i, round, READY, 1 << i);
        self.gather(i, 1 << i);
    }

    /// It gathers signatures of the round it waits for; as soon as it holds f + 1 it starts.
    #[inline]
    fn gather(&mut self, i: usize, signers: u64) {
        let starts = self.completes(i, signers);
        self.stations[i].gathered |= signers;
        if starts {
            self.start(i);
        }
    }

    /// Its reading becomes k P + A, it sends all it holds as one relay and gathers anew.
    fn start(&mut self, i: usize) {
        let station = &mut self.stations[i];
        let (round, held) = (station.waits(), station.gathered);
        station.reading = station.mark(self.setup.p).plus(self.setup.a);
        station.round = round;
        station.gathered = 0;
        self.starts += 1;
        self.send(i, round, RELAY, held);
    }

    /// To the other sound stations in rising order.
    fn send(&mut self, i: usize, round: u64, kind: u64, signers: u64) {
        for to in 0..self.setup.n {
            if to != i as u64 && self.setup.sound(to) {
                let names = Names::new(i as u64, to, round, kind);
                self.flight.push(names, signers, self.time);
            }
        }
    }

    /// A question's 31: a station that is faulty or at n or above.
    fn asks_wrongly(&self, station: u64) -> bool {
        station >= self.setup.n || !self.setup.sound(station)
    }

    /// The reading and round of a station, or 31.
    pub fn station(&self, i: u64) -> Result<(Reading, u64), u8> {
        if self.asks_wrongly(i) {
            return Err(31);
        }
        let station = &self.stations[i as usize];
        Ok((station.reading, station.round))
    }

    /// The lead of station a over b, or 31 or 32.
    pub fn lead(&self, a: u64, b: u64) -> Result<i64, u8> {
        let (mine, round) = self.station(a)?;
        let (other, its) = self.station(b)?;
        if round != its {
            return Err(32);
        }
        Ok(mine.0 as i64 - other.0 as i64)
    }
}
