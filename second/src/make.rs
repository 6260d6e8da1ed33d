//! Scripts made from a seed: good, hostile, spoilt and damaged ones.

use crate::line::{Line, ADVANCE, INCREMENT, READY, RELAY, ROUNDS};
use crate::number;
use crate::script::{Event, LARGEST};
use crate::setup::{Setup, BOUND, M, MOST, PERIOD, STEP};

/// A small random generator.
#[derive(Clone)]
pub struct Random(u64);

impl Random {
    /// One generator for each seed and place in a series.
    pub fn new(seed: u64, place: u64) -> Random {
        let mut random = Random(seed);
        random.0 ^= random.next().wrapping_add(place.wrapping_mul(0xD1B5_4A32_D192_ED03));
        random.next();
        random
    }

    pub fn next(&mut self) -> u64 {
        self.0 = self.0.wrapping_add(0x9E37_79B9_7F4A_7C15);
        let mut z = self.0;
        z = (z ^ z >> 30).wrapping_mul(0xBF58_476D_1CE4_E5B9);
        z = (z ^ z >> 27).wrapping_mul(0x94D0_49BB_1331_11EB);
        z ^ z >> 31
    }

    pub fn below(&mut self, end: u64) -> u64 {
        self.next() % end
    }

    /// Both ends allowed.
    pub fn between(&mut self, low: u64, high: u64) -> u64 {
        low + self.below(high - low + 1)
    }

    pub fn percent(&mut self, chance: u64) -> bool {
        self.below(100) < chance
    }

    pub fn pick<T: Copy>(&mut self, from: &[T]) -> T {
        from[self.below(from.len() as u64) as usize]
    }

    /// A random subset of a mask.
    pub fn subset(&mut self, mask: u64) -> u64 {
        self.next() & mask
    }

    /// One of the stations of a mask that is not empty.
    pub fn member(&mut self, mask: u64) -> u64 {
        let members: Vec<u64> = (0..64).filter(|i| mask >> i & 1 == 1).collect();
        self.pick(&members)
    }
}

/// The least D that the spread rule allows, the least A of the step rule, the least P of gap.
fn least_spread(r: u64, t: u64, p: u64) -> u64 {
    let s = M + r;
    ((p * s + t * M) * (s * s - M * M) + t * s * s * M).div_ceil(s * M * M)
}

fn least_step(r: u64, t: u64, d: u64) -> u64 {
    let s = M + r;
    ((s * d + M * t) * s).div_ceil(M * M)
}

fn least_period(r: u64, t: u64, a: u64) -> u64 {
    a + t * (M + r) / M + 1
}

/// An accepted setup, with D, A and P at, near or well above their least values.
pub fn setup(random: &mut Random, hostile: bool) -> Setup {
    loop {
        let largest = random.pick(&[4, 7, 12]);
        let n = random.between(if hostile { 3 } else { 1 }, largest);
        let most = (n - 1) / 2;
        let f = match random.below(4) {
            0 => random.between(u64::from(hostile), most),
            _ => most,
        };
        let r = match random.below(6) {
            0 => 0,
            1 => 1,
            2 | 3 => 100,
            _ => random.between(0, 100),
        };
        let scale = random.pick(&[1, 3, 10, 100, 2_000, 20_000, 300_000, BOUND]);
        let t = if random.percent(20) { scale } else { random.between(1, scale) };
        let mut slack = |of: u64| match random.below(5) {
            0..=2 => 0,
            3 => 1,
            _ => random.below(of),
        };
        let (more_d, more_a, more_p) = (slack(t + 1), slack(4 * t + 4), slack(20 * t + 20));
        let mut p = match random.below(8) {
            0 => random.between(t, (100 * t).min(PERIOD)),
            1 => random.between(t, PERIOD),
            2 => PERIOD,
            _ => 1,
        };
        // Raise P until the three rules agree; D and A follow it.
        let (mut d, mut a);
        loop {
            d = least_spread(r, t, p) + more_d;
            a = least_step(r, t, d) + more_a;
            let least = least_period(r, t, a) + more_p;
            if p >= least || least > PERIOD {
                break;
            }
            p = least;
        }
        if random.percent(3) {
            (a, d) = (a.max(STEP), d.max(random.pick(&[d, BOUND])));
        }
        let setup = Setup { n, f, r, t, d, a, p, faulty: 0 };
        let faulty = marks(random, &setup, hostile);
        let setup = Setup { faulty, ..setup };
        if setup.rules() == 0 {
            return setup;
        }
    }
}

/// At most f faulty marks; a hostile script has at least one, most often f.
fn marks(random: &mut Random, setup: &Setup, hostile: bool) -> u64 {
    let count = match random.below(4) {
        0 => random.between(u64::from(hostile), setup.f),
        1 if !hostile => 0,
        _ => setup.f,
    };
    let mut mask: u64 = 0;
    while u64::from(mask.count_ones()) < count {
        mask |= 1 << random.below(setup.n);
    }
    mask
}

/// First readings at either end or in between.
pub fn first(random: &mut Random, setup: &Setup) -> Vec<u64> {
    let manner = random.below(4);
    let mut reading = |i| {
        if !setup.sound(i) {
            return 0;
        }
        setup.a
            + match manner {
                0 => 0,
                1 => setup.t,
                2 => setup.t * random.below(2),
                _ => random.between(0, setup.t),
            }
    };
    (0..setup.n).map(&mut reading).collect()
}

/// How a clock runs, and how a station's messages are delivered.
#[derive(Clone, Copy)]
enum Pace {
    Slow,
    Fast,
    Exact,
    Any,
}

#[derive(Clone, Copy)]
enum Haste {
    AtOnce,
    Between,
    LastMoment,
    /// At the last moment if it counts, at once if it would be ignored.
    Spiteful,
}

/// A script that is written while it is played.
pub struct Play {
    pub random: Random,
    pub line: Line,
    /// The setup's numbers, then those of each event.
    pub parts: Vec<Vec<u64>>,
    pace: [Pace; MOST],
    haste: [Haste; MOST],
    /// The stations that faulty ones leave to fall behind.
    spared: u64,
    /// Chance in a hundred that a faulty station acts next; 0 in a good script.
    hostility: u64,
}

impl Play {
    pub fn new(mut random: Random, hostile: bool) -> Play {
        let setup = setup(&mut random, hostile);
        let first = first(&mut random, &setup);
        let hostility = if hostile { random.pick(&[10, 30, 60]) } else { 0 };
        let mut play = Play::of(random, Line::fresh(setup, &first), hostility);
        play.parts = vec![setup.numbers().into_iter().chain(first).collect()];
        play
    }

    /// Goes on from a run as it stands.
    pub fn of(random: Random, line: Line, hostility: u64) -> Play {
        let pace = [Pace::Exact; MOST];
        let haste = [Haste::AtOnce; MOST];
        let mut play = Play { random, line, parts: Vec::new(), pace, haste, spared: 0, hostility };
        play.temper();
        play
    }

    /// Gives every station a pace and a haste.
    fn temper(&mut self) {
        use {Haste::*, Pace::*};
        let paces = self.random.pick(&[&[Slow, Fast][..], &[Slow, Fast, Exact, Any], &[Any]]);
        let hastes = self.random.pick(&[
            &[AtOnce][..],
            &[LastMoment],
            &[AtOnce, LastMoment],
            &[AtOnce, Spiteful],
            &[AtOnce, Between, LastMoment],
        ]);
        for i in 0..MOST {
            self.pace[i] = self.random.pick(paces);
            self.haste[i] = self.random.pick(hastes);
        }
        self.spared = match self.random.below(3) {
            0 => 0,
            1 => (0..MOST)
                .filter(|&i| !matches!(self.haste[i], AtOnce))
                .fold(0, |mask, i| mask | 1 << i),
            _ => self.random.next(),
        };
    }

    /// Adds one event and plays it.
    pub fn step(&mut self) -> u8 {
        if self.random.percent(2) {
            self.temper();
        }
        let part = match self.hostility {
            chance if self.random.percent(chance) => self.attack(),
            _ => self.peaceful(),
        };
        let answer = Event::from_numbers(&part).map_or(0, |event| event.play(&mut self.line));
        self.parts.push(part);
        answer
    }

    fn sound_mask(&self) -> u64 {
        !self.line.setup.faulty & ((1 << self.line.setup.n) - 1)
    }

    /// Delivers a message whose time has come, or lets time pass.
    pub fn peaceful(&mut self) -> Vec<u64> {
        let due = |sent: u64| sent + self.line.setup.t <= self.line.time.0;
        let flight = &self.line.flight;
        let mut ready = Vec::new();
        for (i, names) in flight.names.iter().enumerate() {
            let to = names.recipient() as usize;
            let now = match self.haste[to] {
                Haste::AtOnce => true,
                Haste::Between => self.random.percent(10),
                Haste::LastMoment => false,
                Haste::Spiteful => names.round() != self.line.stations[to].waits(),
            };
            if now || due(flight.sent[i].0) {
                ready.push(*names);
            }
        }
        if ready.is_empty() || self.random.percent(3) {
            if let Some(part) = self.advance() {
                return part;
            }
        }
        if ready.is_empty() {
            // Nothing to deliver and no time to pass: only in records made by hand.
            return vec![2, 0, 1, 1, 0];
        }
        let names = self.random.pick(&ready);
        vec![2, names.sender(), names.recipient(), names.round(), names.kind()]
    }

    /// The most d that drift, marks and messages in flight allow, and the d that paces ask for.
    fn room(&self) -> (u64, u64) {
        let setup = &self.line.setup;
        let s = setup.s();
        let mut most = ADVANCE;
        let mut asked = ADVANCE;
        for sent in &self.line.flight.sent {
            most = most.min((sent.0 + setup.t).saturating_sub(self.line.time.0));
        }
        for (i, station) in self.line.stations.iter().enumerate() {
            let mark = station.mark(setup.p);
            if setup.sound(i as u64) && station.reading < mark {
                let left = mark.0 - station.reading.0;
                most = most.min(left * s / M);
                asked = asked.min(match self.pace[i] {
                    Pace::Slow => left * s / M,
                    Pace::Fast => (left * M).div_ceil(s),
                    _ => left,
                });
            }
        }
        (most, asked.min(most))
    }

    /// An advance that is accepted, if one is.
    fn advance(&mut self) -> Option<Vec<u64>> {
        let (most, asked) = self.room();
        if most == 0 {
            return None;
        }
        let d = match self.random.below(10) {
            0..=5 => asked,
            6 => most,
            7 => 1,
            8 => self.random.between(1, most),
            _ => self.random.between(1, asked),
        };
        Some(self.paced(d))
    }

    /// Increments for d at both ends of the drift rule, none past a mark.
    fn paced(&mut self, d: u64) -> Vec<u64> {
        let setup = self.line.setup;
        let s = setup.s();
        let (low, high) = ((M * d).div_ceil(s), s * d / M);
        let mut part = vec![1, d];
        for i in 0..setup.n as usize {
            if !setup.sound(i as u64) {
                part.push(0);
                continue;
            }
            let station = self.line.stations[i];
            let mark = station.mark(setup.p);
            let left = if station.reading < mark { mark.0 - station.reading.0 } else { high };
            let wanted = match self.pace[i] {
                Pace::Slow => low,
                Pace::Fast => high,
                Pace::Exact => d,
                Pace::Any => self.random.between(low, high),
            };
            part.push(wanted.min(left));
        }
        part
    }

    /// What colluding faulty stations do, and attempts that must be refused.
    fn attack(&mut self) -> Vec<u64> {
        let setup = self.line.setup;
        let mut sound = self.sound_mask();
        if setup.faulty == 0 {
            return self.attempt();
        }
        if sound & !self.spared != 0 {
            sound &= !self.spared;
        }
        let sender = self.random.member(setup.faulty);
        match self.random.below(10) {
            0..=5 => {
                // Make a single station start: all faulty signatures and all sound ones made.
                let open = |to: u64| {
                    let station = &self.line.stations[to as usize];
                    let signers = setup.faulty | self.signed(station.waits());
                    let held = (station.gathered | signers).count_ones();
                    (station.waits() <= ROUNDS && u64::from(held) > setup.f)
                        .then_some((to, signers))
                };
                let open: Vec<_> =
                    (0..setup.n).filter(|i| sound >> i & 1 == 1).filter_map(open).collect();
                if open.is_empty() {
                    return self.peaceful();
                }
                let (to, signers) = self.random.pick(&open);
                vec![3, sender, to, self.line.stations[to as usize].waits(), signers]
            }
            6 | 7 => {
                // Its own signatures alone never suffice, however often they come.
                let to = self.random.member(sound);
                let round = self.line.stations[to as usize].waits();
                let signers = (self.random.subset(setup.faulty) | 1 << sender)
                    | self.random.next() & self.signed(round);
                vec![3, sender, to, round, signers]
            }
            8 => {
                // For any other round the message is accepted and nothing changes.
                let to = self.random.member(sound);
                let round =
                    self.random.pick(&[1, self.line.stations[to as usize].waits() + 1, ROUNDS]);
                vec![3, sender, to, round, self.random.between(1, (1 << setup.n) - 1)]
            }
            _ => self.attempt(),
        }
    }

    /// The sound stations that have a round as their last signed one.
    fn signed(&self, round: u64) -> u64 {
        let sound = self.sound_mask();
        let bits = self.line.stations.iter().enumerate();
        bits.filter(|(_, s)| s.signed == round).fold(0, |mask, (i, _)| mask | 1 << i) & sound
    }

    /// An event that is refused, or nearly so.
    pub fn attempt(&mut self) -> Vec<u64> {
        let setup = self.line.setup;
        let n = setup.n;
        let to = self.random.member(self.sound_mask());
        let round = self.line.stations[to as usize].waits();
        let sender = match setup.faulty {
            0 => self.random.below(n),
            faulty => self.random.member(faulty),
        };
        let full = (1 << n) - 1;
        let (most, _) = self.room();
        match self.random.below(15) {
            // 18: a signature that was not made
            0 | 1 => vec![3, sender, to, round, 1 << self.random.below(n) | setup.faulty],
            2 => vec![3, sender, to, round, full],
            // 17: the sender is sound
            3 => vec![3, self.random.below(n), to, round, self.random.between(1, full)],
            // 11
            4 => vec![3, sender, to, round, self.random.pick(&[0, 1 << n, full + 2, u64::MAX])],
            5 => vec![3, sender, self.random.pick(&[sender, n, u64::MAX]), round, full],
            6 => vec![3, self.random.pick(&[to, n, u64::MAX]), to, round, 1 << to],
            7 => {
                let kind = self.random.pick(&[READY, RELAY, 2]);
                vec![2, sender, to, self.random.pick(&[0, round, ROUNDS, ROUNDS + 1]), kind]
            }
            // 16: no such message
            8 | 9 => {
                let from = self.random.below(n);
                let round = self.random.pick(&[round, round + 1, round.max(2) - 1]);
                vec![2, from, to, round, self.random.below(2)]
            }
            // 14 and 15: one more than the marks and the messages in flight allow
            10 | 11 => {
                let mut part = self.paced(most + 1);
                let s = setup.s();
                for i in (0..n).filter(|&i| setup.sound(i)) {
                    part[2 + i as usize] = (M * (most + 1)).div_ceil(s);
                }
                part
            }
            // 13 and 14: an increment just outside
            12 | 13 => {
                let d = self.random.between(1, most.max(1));
                let mut part = self.paced(d);
                let i = 2 + to as usize;
                part[i] = match self.random.below(4) {
                    0 => setup.s() * d / M + 1,
                    1 => (M * d).div_ceil(setup.s()).saturating_sub(1),
                    2 => part[i] + 1,
                    _ => self.random.pick(&[0, INCREMENT, INCREMENT + 1, u64::MAX]),
                };
                part
            }
            // 11: d outside, or an increment for a faulty station
            _ => {
                let mut part = self.paced(most.max(1));
                if setup.faulty == 0 || self.random.percent(50) {
                    part[1] = self.random.pick(&[0, ADVANCE, ADVANCE + 1, u64::MAX]);
                } else {
                    part[2 + sender as usize] = part[1];
                }
                part
            }
        }
    }
}

/// Numbers at limits, to stand in for another.
pub fn odd(random: &mut Random, n: u64, value: u64) -> u64 {
    let near = [value.wrapping_sub(1), value.wrapping_add(1), value ^ 1 << random.below(16)];
    let limits = [
        0,
        1,
        n.wrapping_sub(1),
        n,
        n.wrapping_add(1),
        (1 << n.min(63)) - 1,
        1 << n.min(63),
        ROUNDS,
        ROUNDS + 1,
        ADVANCE,
        ADVANCE + 1,
        INCREMENT,
        INCREMENT + 1,
        1 << 32,
        1 << 63,
        u64::MAX,
    ];
    if random.percent(50) {
        random.pick(&near)
    } else {
        random.pick(&limits)
    }
}

/// Changes single numbers of events.
fn spoil(random: &mut Random, parts: &mut [Vec<u64>]) {
    let n = parts[0][0];
    for _ in 0..random.between(1, 4) {
        let events = parts.len() as u64 - 1;
        let part = &mut parts[1 + random.below(events) as usize];
        let place = random.between(1, part.len() as u64 - 1) as usize;
        part[place] = odd(random, n, part[place]);
    }
}

/// A setup off by one at one of its rules, or a number past a limit.
fn misset(random: &mut Random, numbers: &mut [u64]) {
    let [n, f, _, t, _, a, _, faulty] = numbers[..8] else {
        return;
    };
    let any = random.below(n) as usize + 8;
    let marked = if faulty == 0 { any } else { random.member(faulty) as usize + 8 };
    let (place, values): (usize, &[u64]) = match random.below(13) {
        0 => (0, &[0, 12, 13, u64::MAX]),
        1 => (1, &[(n - 1) / 2, (n - 1) / 2 + 1, 1 << 63, u64::MAX]),
        2 => (2, &[0, 100, 101, u64::MAX]),
        3 => (3, &[0, t - 1, t + 1, BOUND, BOUND + 1, u64::MAX]),
        4 => (4, &[0, BOUND, BOUND + 1, u64::MAX]),
        5 => (5, &[0, STEP, STEP + 1, u64::MAX]),
        6 => (6, &[0, a, a + t, PERIOD, PERIOD + 1, u64::MAX]),
        7 => (7, &[1 << n, (1 << (f + 1)) - 1, faulty | 1, faulty << 1, u64::MAX]),
        8 => (4, &[numbers[4] - 1]),
        9 => (5, &[numbers[5] - 1]),
        10 => (6, &[numbers[6] - 1]),
        11 => (marked, &[1, a, a + t]),
        _ => (any, &[a - 1, a - 1, a, a + t, a + t + 1, u64::MAX]),
    };
    numbers[place] = random.pick(values);
}

/// A number in a form that must be refused.
fn misshape(random: &mut Random, out: &mut Vec<u8>, value: u64) {
    let start = out.len();
    number::write(out, value);
    let last = out.len() - 1;
    match random.below(5) {
        // 22: longer than the fewest bytes
        0 | 1 => {
            out[last] |= 0x80;
            let more = random.below(3);
            out.extend((0..more).map(|_| 0x80));
            out.push(0);
        }
        // 23, or the largest: a tenth byte
        2 | 3 => {
            out.truncate(start);
            out.extend([random.pick(&[0x80, 0xFF]); 9]);
            out.push(random.pick(&[0, 1, 2, 2, 3, 0x7F, 0x80, 0xFF]));
        }
        // 23: a number that never ends
        _ => out.extend([0x80; 12]),
    }
}

pub fn encode(parts: &[Vec<u64>]) -> Vec<u8> {
    let mut bytes = Vec::new();
    parts.iter().flatten().for_each(|&value| number::write(&mut bytes, value));
    bytes
}

/// Cuts, changes or appends bytes, or writes numbers in wrong forms.
fn damage(random: &mut Random, parts: &mut [Vec<u64>]) -> Vec<u8> {
    match random.below(12) {
        0..=4 => {
            misset(random, &mut parts[0]);
            return encode(parts);
        }
        5 => {
            // an unknown kind
            let place = random.between(1, parts.len() as u64 - 1) as usize;
            parts[place][0] = random.pick(&[0, 4, 5, 127, 128, 1 << 32, u64::MAX]);
            return encode(parts);
        }
        6..=8 => {
            let count = parts.iter().flatten().count() as u64;
            let end = if random.percent(40) { parts[0].len() as u64 } else { count };
            let place = random.below(end) as usize;
            let mut bytes = Vec::new();
            for (i, &value) in parts.iter().flatten().enumerate() {
                if i == place {
                    misshape(random, &mut bytes, value);
                } else {
                    number::write(&mut bytes, value);
                }
            }
            return bytes;
        }
        _ => {}
    }
    let mut bytes = encode(parts);
    let length = bytes.len() as u64;
    match random.below(6) {
        0 => bytes.truncate(random.below(length) as usize),
        1 => bytes.truncate(random.below(20.min(length)) as usize),
        2 => {
            let place = random.below(length) as usize;
            bytes[place] = random.next() as u8;
        }
        3 => bytes.insert(random.below(length) as usize, random.next() as u8),
        4 => {
            bytes.remove(random.below(length) as usize);
        }
        _ => {
            bytes.extend((0..=random.below(12)).map(|_| (random.next() >> random.below(60)) as u8))
        }
    }
    bytes
}

/// Document 01's rehearsal: its setup, and the advance in which station 1 signs round 1.
const SETUP: [u64; 11] = [3, 1, 0, 2, 2, 4, 7, 4, 4, 5, 0];
const SIGNED: [u64; 5] = [1, 2, 2, 2, 0];

/// Scripts written by hand: together they reach every answer that a script can reach.
pub fn each() -> Vec<Vec<u8>> {
    let mut scripts = Vec::new();
    // 0 to 8: one number of the setup is changed.
    let changes = [
        (0, 0),
        (0, 13),
        (1, 2),
        (2, 101),
        (3, 0),
        (4, BOUND + 1),
        (5, STEP + 1),
        (6, PERIOD + 1),
        (7, 8),
        (7, 3),
        (6, 6),
        (5, 3),
        (4, 1),
        (8, 3),
        (8, 6),
        (8, 7),
        (10, 4),
    ];
    for (place, value) in changes {
        let mut setup = SETUP;
        setup[place] = value;
        scripts.push(encode(&[setup.to_vec(), SIGNED.to_vec()]));
    }
    // One event behind that advance; the last two need one more.
    let signed = encode(&[SETUP.to_vec(), SIGNED.to_vec()]);
    let events: [&[u64]; 11] = [
        &[2, 1, 0, 1, 0],
        &[1, 0, 0, 0, 0],
        &[2, 1, 0, 1, 2],
        &[3, 2, 0, 1, 8],
        &[1, 1, 1, 2, 0],
        &[1, 2, 2, 2, 0],
        &[2, 1, 0, 1, 1],
        &[3, 0, 1, 1, 4],
        &[3, 2, 0, 1, 1],
        &[1, 1, 1, 1, 0, 1, 1, 1, 1, 0],
        &[1, 1, 1, 1, 0, 1, 2, 2, 2, 0],
    ];
    for event in events {
        scripts.push([&signed[..], &encode(&[event.to_vec()])].concat());
    }
    // 21 to 24, in the setup and behind an event; no byte and one byte among them.
    let stops: [&[u8]; 7] = [&[], &[0x80], &[0x80, 0], &[0xFF; 10], &[0], &[4], &[2, 1, 0]];
    for stop in stops {
        scripts.push(stop.to_vec());
        scripts.push([&signed[..], stop].concat());
    }
    // The longest that is played, and one byte more.
    let mut longest = encode(&[SETUP.to_vec()]);
    while longest.len() < LARGEST {
        longest.extend([2, 1, 0, 1, 0]);
    }
    longest.truncate(LARGEST);
    scripts.push(longest);
    scripts.push(vec![0; LARGEST + 1]);
    scripts
}

/// One script of a kind; none for a kind that is not known.
pub fn script(seed: u64, place: u64, kind: &str) -> Option<Vec<u8>> {
    if kind == "each" {
        return each().into_iter().cycle().nth(place as usize - 1);
    }
    let mut random = Random::new(seed, place);
    let small = kind == "small";
    let kind = match kind {
        "mixed" | "small" => ["good", "hostile", "spoilt", "damaged"][place as usize % 4],
        kind => kind,
    };
    let hostile = match kind {
        "good" => false,
        "hostile" => true,
        "spoilt" | "damaged" => random.percent(50),
        _ => return None,
    };
    let most = if small { 40 } else { random.pick(&[20, 80, 200, 400]) };
    let events = random.between(5, most);
    let mut play = Play::new(Random::new(random.next(), 0), hostile);
    for _ in 0..events {
        play.step();
    }
    let mut parts = play.parts;
    let mut bytes = match kind {
        "spoilt" => {
            spoil(&mut random, &mut parts);
            encode(&parts)
        }
        "damaged" => damage(&mut random, &mut parts),
        _ => encode(&parts),
    };
    bytes.truncate(LARGEST);
    Some(bytes)
}
