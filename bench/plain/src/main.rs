//! The same job in plain Rust, to measure with. Each engine reads a log on standard input, and prints its
//! answer.
//!
//!     plain tree        a tree of small objects, without a check, over a hash map by name
//!     plain tree-parse  only the parsing of that tree
//!     plain serial      flat columns and dense key numbers, one transaction after another
//!     plain bohm [--cc 1] [--exec 1] [--parts 1] [--batch 4096]
//!                       the same log by BOHM's steps, on the given planning and executing threads
//!     plain flow [--threads 1] [--window 262144]
//!                       the log in windows of --window bytes, read, checked and printed on --threads threads and
//!                       run in order
//!
//! With --times each reports on standard error how many seconds its parts took, as JSON.

mod board;
mod bohm;
mod check;
mod draft;
mod fault;
mod flow;
mod log;
mod names;
mod parse;
mod plan;
mod print;
mod run;
mod settle;
mod sweep;
mod text;
mod times;
mod tree;

use fault::Fault;
use log::Log;
use run::Answer;
use std::process::ExitCode;
use std::time::Instant;
use text::Text;
use times::Times;

/// An engine over the flat log.
fn flat(times: &mut Times, run: impl FnOnce(&Log, &mut Times) -> Answer) -> Result<(), Fault> {
    let mut text = Text::open(text::WINDOW)?;
    let start = Instant::now();
    let log = parse::parse(&mut text)?;
    times.note("read", text.reading);
    times.note("parse", start.elapsed() - text.reading);
    times.take("check", || check::check(&log))?;
    let answer = times.take_with("execute", |times| run(&log, times));
    let out = times.take("print", || print::print(&log, &answer));
    let written = times.take("write", || text::write([out.as_slice()]));
    // The process ends, which frees everything at once.
    std::mem::forget((log, answer, out));
    written
}

fn tree(times: &mut Times, parses_alone: bool) -> Result<(), Fault> {
    let text = times.take("read", text::read_all)?;
    let doc = times.take("parse", || tree::parse::parse(&text)).map_err(Fault::Line)?;
    if parses_alone {
        println!("{}", doc.log.len());
        return Ok(());
    }
    let (replies, store) = times.take("execute", || tree::run::run(&doc));
    let out = times.take("print", || tree::run::print(&replies, &store));
    times.take("write", || text::write([out.as_slice()]))
}

struct Settings {
    bohm: bohm::Settings,
    flow: flow::Settings,
    tells: bool,
}

/// The arguments after the engine's name.
fn settings(mut words: impl Iterator<Item = String>) -> Option<Settings> {
    let mut settings = Settings {
        bohm: bohm::Settings { planners: 1, executors: 1, parts: 1, batch: 4096 },
        flow: flow::Settings { threads: 1, window: text::WINDOW },
        tells: false,
    };
    while let Some(word) = words.next() {
        let number = match word.as_str() {
            "--cc" => &mut settings.bohm.planners,
            "--exec" => &mut settings.bohm.executors,
            "--parts" => &mut settings.bohm.parts,
            "--batch" => &mut settings.bohm.batch,
            "--threads" => &mut settings.flow.threads,
            "--window" => &mut settings.flow.window,
            "--times" => {
                settings.tells = true;
                continue;
            }
            _ => return None,
        };
        *number = words.next()?.parse().ok().filter(|number| *number > 0)?;
    }
    Some(settings)
}

fn main() -> ExitCode {
    let mut words = std::env::args().skip(1);
    let engine = words.next().unwrap_or_default();
    let Some(settings) = settings(words) else {
        eprintln!("plain: an engine, then --cc, --exec, --parts, --batch, --threads, --window N or --times");
        return ExitCode::from(2);
    };
    let mut times = Times::new();
    let done = match engine.as_str() {
        "tree" => tree(&mut times, false),
        "tree-parse" => tree(&mut times, true),
        "serial" => flat(&mut times, |log, _| run::serial(log)),
        "bohm" => flat(&mut times, |log, times| bohm::run(log, &settings.bohm, times)),
        "flow" => flow::run(&settings.flow, &mut times),
        _ => {
            eprintln!("plain: no engine {engine}");
            return ExitCode::from(2);
        }
    };
    if settings.tells {
        times.tell();
    }
    match done {
        Ok(()) => ExitCode::SUCCESS,
        Err(fault) => {
            eprintln!("{fault}");
            ExitCode::FAILURE
        }
    }
}
