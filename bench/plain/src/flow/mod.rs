//! The log in windows, the fastest way on several threads: a free thread reads the next window, parses and
//! checks it; a thread that finds the next window in order ready runs all that are; any thread prints what has
//! run. Names of the store are read first and shared. A window's bytes and columns are reused.

mod answer;
mod chunk;
mod input;
mod order;
mod work;

use crate::fault::Fault;
use crate::log::Log;
use crate::parse::parse_store;
use crate::text::{Buffer, Text};
use crate::times::Times;
use answer::Answer;
use work::Shared;

pub struct Settings {
    pub threads: usize,
    /// The size of a window in bytes, if no transaction is longer.
    pub window: usize,
}

pub fn run(settings: &Settings, times: &mut Times) -> Result<(), Fault> {
    let mut text = Text::open(settings.window)?;
    let (start, from) = times.take("store", || parse_store(&mut text))?;
    text.hand_over(from, &mut Buffer::default());
    let answer = run_windows(settings, text, &start, times)?;
    answer.write(start, settings.threads, times)
}

fn run_windows(settings: &Settings, text: Text, start: &Log, times: &mut Times) -> Result<Answer, Fault> {
    let shared = Shared::new(settings.threads, text, start);
    let busy = times.take("windows", || shared.work_all());
    let (input, runner, replies) = shared.end();
    times.note("read", input.end()?);
    times.note("parse", busy.parse);
    times.note("check", busy.check);
    times.note("execute", runner.busy);
    times.note("print", busy.print);
    runner.verdict()?;
    let (others, cells) = runner.end();
    Ok(Answer { replies, others, cells })
}
