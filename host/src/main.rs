// Runs the proved calls: `empties` tries them with empty buffers. And beside the original Rust: `compare` looks for differences,
// `bench` measures both, `record` writes the original's answers down for the program `replay`, and `list` does what `listing` does.
mod empties;
mod marks;
mod noise;
mod original;
mod proved;

#[cfg(original)]
mod bench;
#[cfg(original)]
mod inside;
#[cfg(original)]
mod laws;
#[cfg(original)]
mod list;
#[cfg(original)]
mod record;
#[cfg(original)]
mod sessions;
#[cfg(original)]
mod signals;

use std::process::ExitCode;

const USAGE: &str = "usage: rozimaha-host empties | compare | bench | record | list";

fn main() -> ExitCode {
    let words: Vec<String> = std::env::args().skip(1).collect();
    let words: Vec<&str> = words.iter().map(String::as_str).collect();
    match words[..] {
        ["empties"] => told(empties::try_all()),
        ["compare"] => told(compare()),
        ["bench"] => told(bench()),
        ["record"] => told(record()),
        ["list"] => told(list()),
        _ => {
            eprintln!("{USAGE}");
            ExitCode::from(2)
        }
    }
}

fn told(outcome: Result<(), String>) -> ExitCode {
    match outcome {
        Ok(()) => ExitCode::SUCCESS,
        Err(why) => {
            eprintln!("{why}");
            ExitCode::FAILURE
        }
    }
}

#[cfg(original)]
fn compare() -> Result<(), String> {
    let laws = laws::compare()?;
    let sessions = sessions::compare()?;
    println!("compared: {}", laws + sessions.calls);
    Ok(())
}

#[cfg(original)]
fn bench() -> Result<(), String> {
    bench::laws();
    bench::g722();
    bench::listing()
}

#[cfg(original)]
fn list() -> Result<(), String> {
    list::list().map_err(|why| format!("listing: {why}"))
}

#[cfg(original)]
fn record() -> Result<(), String> {
    record::record();
    Ok(())
}

#[cfg(not(original))]
fn missing() -> Result<(), String> {
    Err("NOT COMPARED: this host was built without the original Rust; set ROZIMAHA_SOURCE to its folder".to_string())
}

#[cfg(not(original))]
use self::{missing as bench, missing as compare, missing as list, missing as record};
