//! Scripts for measuring: twelve stations and events of five bytes, so that 13,000 fit.

use crate::line::Line;
use crate::make::{encode, Random};
use crate::script::Event;
use crate::setup::Setup;

/// A script of so many events; none for a kind that is not known.
///
/// - `deliveries`: all twelve are sound and land together, all messages are delivered in any
///   order, and the next round begins.
/// - `run`: so too, but two stations are faulty, and three events of ten are sends, of which some
///   are refused.
/// - `refusals`: all sound stations but one land, and every other event is refused.
pub fn script(kind: &str, events: usize) -> Option<Vec<u8>> {
    let faulty = match kind {
        "deliveries" => 0,
        "run" | "refusals" => 3,
        _ => return None,
    };
    let setup = Setup { n: 12, f: 5, r: 0, t: 2, d: 2, a: 4, p: 7, faulty };
    let late = u64::from(kind == "refusals");
    let each = |value: &dyn Fn(u64) -> u64| -> Vec<u64> {
        (0..setup.n).map(|i| if setup.sound(i) { value(i) } else { 0 }).collect()
    };
    let first = each(&|i| setup.a + if i == 2 { 0 } else { late });
    let advance = [vec![1, 3 - late], each(&|_| 3 - late)].concat();
    let mut line = Line::fresh(setup, &first);
    let mut parts = vec![setup.numbers().to_vec(), first];
    let mut random = Random::new(1, 1);
    for _ in 0..events {
        let part = match &line.flight.names[..] {
            [] => advance.clone(),
            _ if kind == "refusals" => refused(&mut random),
            _ if kind == "run" && random.percent(30) => send(&mut random, &line),
            names => {
                let m = random.pick(names);
                vec![2, m.sender(), m.recipient(), m.round(), m.kind()]
            }
        };
        Event::from_numbers(&part)?.play(&mut line);
        parts.push(part);
    }
    Some(encode(&parts))
}

/// To a station for the round it waits for or the next; 17 from station 2, 18 with its signature.
fn send(random: &mut Random, line: &Line) -> Vec<u64> {
    let to = random.between(3, 11);
    let round = line.stations[to as usize].waits() + random.below(2);
    vec![3, random.below(3), to, round, random.between(1, 7)]
}

/// Station 2 has not signed round 1 and has sent nothing: 16, 16, 17 or 18.
fn refused(random: &mut Random) -> Vec<u64> {
    let to = random.between(3, 11);
    match random.below(4) {
        0 => vec![2, 2, to, 1, 0],
        1 => vec![2, random.below(3), to, 2, 1],
        2 => vec![3, 2, to, 1, 1],
        _ => vec![3, random.below(2), to, 1, random.between(4, 7)],
    }
}
