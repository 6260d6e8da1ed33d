//! Demand 3's four sentences and the count of the flight, checked on every run.

use crate::line::{Line, Moment};
use crate::script::{Event, Opening, Reader, LARGEST};
use crate::setup::MOST;

/// What the history of a run has shown so far.
pub struct Watch {
    /// Whether some sound clock has shown the mark of a round.
    shown: Vec<bool>,
    /// When the first sound station started a round.
    started: Vec<Option<Moment>>,
    sent: u64,
    delivered: u64,
}

impl Watch {
    pub fn new() -> Watch {
        Watch { shown: Vec::new(), started: Vec::new(), sent: 0, delivered: 0 }
    }

    /// Looks at one event: the run before it, the answer and the run after it.
    pub fn event(
        &mut self,
        old: &Line,
        event: &Event,
        answer: u8,
        new: &Line,
    ) -> Result<(), String> {
        if answer != 0 {
            if old != new {
                return Err("a refused event changed the run".into());
            }
            return Ok(());
        }
        let setup = &new.setup;
        let others = setup.sound_count() - 1;
        let sound = || (0..setup.n).filter(|&i| setup.sound(i)).map(|i| i as usize);
        let most = sound().map(|i| new.stations[i].round).max().unwrap_or(0) as usize;
        self.shown.resize(self.shown.len().max(most + 2), false);
        self.started.resize(self.started.len().max(most + 2), None);
        // A clock shows a mark when an advance brings it up to that mark.
        let increment = |i: usize| match *event {
            Event::Advance { increments, .. } => increments[i],
            _ => 0,
        };
        for i in sound() {
            let was = &old.stations[i];
            let mark = was.mark(setup.p);
            if was.reading < mark && was.reading.plus(increment(i)) == mark {
                self.shown[was.waits() as usize] = true;
            }
        }
        self.delivered += u64::from(matches!(event, Event::Deliver { .. }));
        for i in sound() {
            let (was, is) = (&old.stations[i], &new.stations[i]);
            if is.signed != was.signed {
                self.sent += others;
            }
            if is.round == was.round {
                continue;
            }
            self.sent += others;
            if is.round != was.waits() {
                return Err(format!("station {i} leaves out a round"));
            }
            let k = is.round as usize;
            if !self.shown[k] {
                return Err(format!(
                    "sentence 1: station {i} starts {k} before its mark was shown"
                ));
            }
            self.started[k].get_or_insert(new.time);
            if is.reading < was.reading.plus(increment(i)) {
                return Err(format!("sentence 4: the start of {k} sets station {i} back"));
            }
        }
        if self.sent != self.delivered + new.flight.len() as u64 {
            return Err("the number in flight is not sent less delivered".into());
        }
        self.moment(new)
    }

    /// Sentences 2 and 3 of a run as it stands.
    pub fn moment(&self, line: &Line) -> Result<(), String> {
        let setup = &line.setup;
        let sound = || (0..setup.n as usize).filter(|&i| setup.sound(i as u64));
        for i in sound() {
            let station = &line.stations[i];
            let ahead = self.started.iter().enumerate().skip(station.round as usize + 1);
            for (k, started) in ahead {
                if started.is_some_and(|started| line.time > started.plus(setup.t)) {
                    return Err(format!("sentence 2: station {i} is too long behind round {k}"));
                }
            }
            for j in sound().take_while(|&j| j < i) {
                let other = &line.stations[j];
                if station.round == other.round
                    && station.reading.0.abs_diff(other.reading.0) > setup.d
                {
                    return Err(format!("sentence 3: stations {j} and {i} are too far apart"));
                }
            }
        }
        Ok(())
    }
}

/// Plays a script and checks every event: how many were played, or the first violation.
pub fn check(bytes: &[u8]) -> Result<u64, String> {
    let mut reader = Reader::new(bytes);
    if bytes.len() > LARGEST {
        return Ok(0);
    }
    let Opening::Run(mut line) = reader.open() else {
        return Ok(0);
    };
    let mut watch = Watch::new();
    watch.moment(&line).map_err(|violation| format!("setup: {violation}"))?;
    let mut increments = [0; MOST];
    let increments = &mut increments[..line.setup.n as usize];
    let mut count = 0;
    while let Ok(Some(event)) = reader.event(increments) {
        count += 1;
        let old = line.clone();
        let answer = event.play(&mut line);
        watch
            .event(&old, &event, answer, &line)
            .map_err(|violation| format!("event {count}: {violation}"))?;
    }
    Ok(count)
}
