//! Plays a day's list of calls, shows which instances still have a writer, why others were shown abandoned, and where a
//! writer's lamp goes.

mod action;
mod args;
mod cause;
mod dates;
mod day;
mod explain;
mod forms;
mod history;
mod lamp;
mod largest;
mod make;
mod marks;
mod mirror;
mod names;
mod nearest;
mod plan;
mod play;
mod progress;
#[cfg(test)]
mod random;
mod rank;
mod report;
mod said;
mod source;
mod table;
mod tell;
mod warnings;
mod words;
mod writers;

use args::{Asked, Mode};
use dcps::{KeyHash, Refusal, State};
use explain::Explain;
use history::{Guid, History};
use lamp::Lamp;
use names::Names;
use plan::Plan;
use play::{play, Watch};
use report::{Form, Report};
use source::Source;
use std::ffi::OsStr;
use std::io::{self, Write};
use std::process::ExitCode;
use table::{Log, Tables};
use warnings::Warnings;

/// Runs the program by the process's arguments.
pub fn main() -> ExitCode {
    let arguments: Vec<_> = std::env::args_os().skip(1).collect();
    let (text, code) = match run(&arguments) {
        Ok(text) => (text, ExitCode::SUCCESS),
        Err(Stop { said, code }) => {
            let _ = io::stderr().write_all(said.as_bytes());
            (String::new(), ExitCode::from(code))
        }
    };
    // A reader that goes away early is no fault of ours.
    let _ = io::stdout().write_all(text.as_bytes());
    code
}

/// Why there is nothing to show: 1 for what is wrong with the day, 2 for what is wrong with the arguments.
struct Stop {
    said: String,
    code: u8,
}

fn wrong(said: String) -> Stop {
    Stop { said: said + "\n", code: 1 }
}

fn run(arguments: &[std::ffi::OsString]) -> Result<String, Stop> {
    let asked = args::read(arguments)
        .map_err(|what| Stop { said: format!("{what}\n{}", args::USAGE), code: 2 })?;
    match asked {
        Asked::Help => Ok(args::USAGE.to_owned() + args::HELP),
        Asked::Play(day, mode) => show(&day, mode),
    }
}

fn show(day: &OsStr, mode: Mode) -> Result<String, Stop> {
    let name = if day == "-" { "standard input".into() } else { day.to_string_lossy() };
    let unreadable = |e: io::Error| wrong(format!("{name}: {e}"));
    let mut source = Source::open(day).map_err(unreadable)?;
    let sized = source.read("looking at the keys").and_then(|mut s| largest::largest(&mut s));
    let largest = sized.map_err(unreadable)?;
    let (key, writer) = asked(&mode, largest)?;
    let mut names = Names::new(largest);
    let (mut tables, mut log) = (Tables::default(), Log::default());
    let (mut explain, mut history) = (Explain::new(key.unwrap_or_default()), History::default());
    let (mut lamp, mut warnings) = (Lamp::new(writer.unwrap_or_default()), Warnings::default());
    let watcher: &mut dyn Watch = match mode {
        Mode::Tables => &mut tables,
        Mode::Log => &mut log,
        Mode::Explain(_) => &mut explain,
        Mode::Lamp(_) => &mut lamp,
        Mode::Why(_) => &mut history,
    };
    let watchers: &mut [&mut dyn Watch] = &mut [&mut warnings, watcher];
    let state = played(&mut source, &name, &Plan::default(), &mut names, watchers)?;
    let refused = |refusal: Refusal| wrong(refusal.to_string());
    let never = |word: String| wrong(format!("{word} does not appear in {name}"));
    let text = match mode {
        Mode::Tables => tables.text(&name, &state, &names).map_err(refused)?,
        Mode::Log => log.text(),
        Mode::Explain(word) => {
            key.and_then(|key| explain.text(&names.show(&key))).ok_or_else(|| never(word))?
        }
        Mode::Lamp(word) => {
            lamp.text(&state, &names).map_err(refused)?.ok_or_else(|| never(word))?
        }
        Mode::Why(form) => {
            let report = Report::new(&name, &history, &names, &warnings);
            why(report, form, &mut source, largest)?
        }
    };
    let _ = io::stderr().write_all(warnings.text(&name).as_bytes());
    Ok(text)
}

/// Plays the day with the changes of a plan.
fn played(
    source: &mut Source,
    name: &str,
    plan: &Plan,
    names: &mut Names,
    watchers: &mut [&mut dyn Watch],
) -> Result<State, Stop> {
    let doing = if *plan == Plan::default() { "playing" } else { "trying a change" };
    let mut calls = source.read(doing).map_err(|e| wrong(format!("{name}: {e}")))?;
    play(&mut calls, names, plan, watchers).map_err(|stop| wrong(stopped(name, stop)))
}

/// The answer in a form, with what its actions would save; a row of the CSV has no action.
fn why(
    mut report: Report<'_>,
    form: Form,
    source: &mut Source,
    largest: u64,
) -> Result<String, Stop> {
    let name = report.name;
    let replay = |plan: &Plan| {
        let (mut history, mut names) = (History::default(), Names::new(largest));
        played(source, name, plan, &mut names, &mut [&mut history])?;
        Ok(history)
    };
    if form != Form::Csv {
        report.try_actions(replay)?;
    }
    Ok(report.write(form))
}

/// The key and the writer that are asked about. No key where it is beyond the largest size, so that it cannot stand in the
/// day.
fn asked(mode: &Mode, largest: u64) -> Result<(Option<KeyHash>, Option<Guid>), Stop> {
    let (mut key, mut writer) = (None, None);
    match mode {
        Mode::Explain(word) if words::is_name(word) && names::size(word) > largest => {}
        Mode::Explain(word) => key = Some(Names::new(largest).key(word).map_err(wrong)?),
        Mode::Lamp(word) => writer = Some(lamp::writer(word).map_err(wrong)?),
        _ => {}
    }
    Ok((key, writer))
}

/// Each bad line with what is wrong with it.
fn stopped(name: &str, stop: play::Stop) -> String {
    let faults = match stop {
        play::Stop::Unreadable(e) => return format!("{name}: {e}"),
        play::Stop::Faults(faults) => faults,
    };
    let lines = faults.first.iter().map(|fault| format!("{name}:{}: {}\n", fault.line, fault.what));
    let mut text: String = lines.collect();
    if faults.all > faults.first.len() {
        text += &format!("… and {} more bad lines\n", faults.all - faults.first.len());
    }
    text + "nothing was played"
}
