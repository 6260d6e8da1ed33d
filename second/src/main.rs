//! A second program for document 01: it rehearses scripts, plays single events on records,
//! makes scripts and records, and checks demand 3 on runs.

mod bench;
mod cases;
mod check;
mod line;
mod make;
mod number;
mod pack;
mod records;
mod script;
mod setup;
mod single;
#[cfg(test)]
mod tests;

use std::fs;
use std::io::{self, Read, Write};
use std::process::ExitCode;

const USAGE: &str = "second rehearse | single | make SEED COUNT DIR KIND | check FILE... \
                     | pack SEED COUNT FILE KIND | records SEED COUNT FILE \
                     | cases FILE OUT | replay FILE | bench KIND EVENTS FILE";

fn main() -> ExitCode {
    let words: Vec<String> = std::env::args().skip(1).collect();
    let words: Vec<&str> = words.iter().map(String::as_str).collect();
    match run(&words) {
        Ok(()) => ExitCode::SUCCESS,
        Err(trouble) => {
            eprintln!("{trouble}");
            ExitCode::FAILURE
        }
    }
}

fn run(words: &[&str]) -> Result<(), String> {
    let told = |trouble: io::Error| trouble.to_string();
    let mut sink = io::stdout().lock();
    match *words {
        ["rehearse"] => {
            // One byte more than is played tells that there are too many.
            let most = script::LARGEST + 1;
            let mut bytes = Vec::with_capacity(most + 1);
            io::stdin().lock().take(most as u64).read_to_end(&mut bytes).map_err(told)?;
            script::rehearse(&bytes, &mut sink).map_err(told)?;
        }
        ["single"] => {
            let mut bytes = Vec::new();
            io::stdin().lock().read_to_end(&mut bytes).map_err(told)?;
            let mut out = Vec::new();
            single::single(&bytes, &mut out);
            sink.write_all(&out).map_err(told)?;
        }
        ["make", seed, count, folder, kind] => {
            let (seed, count) = (whole(seed)?, whole(count)?);
            fs::create_dir_all(folder).map_err(told)?;
            for place in 1..=count {
                let bytes = make::script(seed, place, kind).ok_or(USAGE)?;
                fs::write(format!("{folder}/{place:06}.script"), bytes).map_err(told)?;
            }
        }
        ["check", ref files @ ..] => {
            let mut events = 0;
            for file in files {
                let bytes = fs::read(file).map_err(told)?;
                match check::check(&bytes) {
                    Ok(played) => events += played,
                    Err(violation) => {
                        writeln!(sink, "{file}: {violation}").map_err(told)?;
                        return Err("violated".into());
                    }
                }
            }
            writeln!(sink, "{} scripts, {events} events, all hold", files.len()).map_err(told)?;
        }
        ["pack", seed, count, file, kind] => {
            let (seed, count) = (whole(seed)?, whole(count)?);
            let mut out = Vec::new();
            for place in 1..=count {
                let bytes = make::script(seed, place, kind).ok_or(USAGE)?;
                pack::add(&mut out, pack::SCRIPT, &bytes);
            }
            fs::write(file, out).map_err(told)?;
        }
        ["records", seed, count, file] => {
            fs::write(file, records::records(whole(seed)?, whole(count)?)).map_err(told)?;
        }
        ["cases", file, out] => {
            let text = fs::read_to_string(file).map_err(told)?;
            fs::write(out, cases::cases(&text)?).map_err(told)?;
        }
        ["replay", file] => {
            let bytes = fs::read(file).map_err(told)?;
            pack::replay(&bytes, &mut sink).map_err(told)?;
        }
        ["bench", kind, events, file] => {
            let bytes = bench::script(kind, whole(events)? as usize).ok_or(USAGE)?;
            fs::write(file, bytes).map_err(told)?;
        }
        _ => return Err(USAGE.into()),
    }
    sink.flush().map_err(told)
}

fn whole(word: &str) -> Result<u64, String> {
    word.parse().map_err(|_| format!("{word}: not a whole number"))
}
