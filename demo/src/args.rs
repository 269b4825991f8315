//! The arguments.

use crate::report::Form;
use std::ffi::{OsStr, OsString};

pub const USAGE: &str = "\
usage: demo DAY                       plays the file and prints the instances and writers after it
       demo DAY log                   prints every call with its answer
       demo DAY explain KEY           prints the history of one instance, and why it is shown as it is
       demo DAY lamp WRITER           prints the calls that moved a writer's lamp, and why it is where it is
       demo DAY why                   counts how often each instance was shown abandoned, and ranks the causes
       demo DAY why --csv             the same as comma-separated values, a row for each abandonment
       demo DAY why --json            the same as JSON
       demo DAY why --html            the same as one page
       demo --help                    prints this, and what a day's file has in it
DAY is a file, or - for standard input.
";

pub const HELP: &str = "
A day's file has one call in each line: the call, what it is about, then words and values in any order. # starts a
comment. demo/README.md lists all calls. For example:

  match plotter-1/c1 kind automatic lease 10m at 08:00
  admit pen-01 from plotter-1/c1 at 2026-11-15 08:01 strength 5
  assert plotter-1/c1 at 08:05
  lapse at 08:20

A key is a name without blanks. A line above the first key can state the largest size of all keys of the file, in
bytes:

  keys largest 64

With a size of up to 16 the KeyHash of a name is the name, padded with zeros. With 17 to 4096 it is the hash of the
name. Without this line the size is 16, or 4096 if a name is longer than 16 bytes.

A console has places for 128 instances. For a bench-top console with places for 32, write above the first call:

  places 32

A writer's lamp is on the first alive instance, in the order of the keys, that has this writer among its writers. To
see it in the middle of a day, play the first lines of the file:

  head -n 20 day.txt | demo - lamp plotter-1/c1

Exit status: 0; 1 for a file, key or writer that cannot be shown; 2 for wrong arguments.
";

#[derive(Debug, PartialEq, Eq)]
pub enum Mode {
    Tables,
    Log,
    Explain(String),
    Lamp(String),
    Why(Form),
}

#[derive(Debug, PartialEq, Eq)]
pub enum Asked {
    Help,
    Play(OsString, Mode),
}

/// What is asked for, or one sentence about what is wrong.
pub fn read(arguments: &[OsString]) -> Result<Asked, String> {
    let is_help = |argument: &OsString| argument == "--help" || argument == "-h";
    if arguments.iter().any(is_help) {
        return Ok(Asked::Help);
    }
    let (day, rest) = arguments.split_first().ok_or("name the file of a day")?;
    let rest: Vec<&str> = rest
        .iter()
        .map(|a| a.to_str().ok_or("an argument is not valid UTF-8"))
        .collect::<Result<_, _>>()?;
    if is_option(day) {
        return Err(format!(
            "{} is not a day: name the file of a day first",
            day.to_string_lossy()
        ));
    }
    let mode = match rest[..] {
        [] => Mode::Tables,
        ["log"] => Mode::Log,
        ["explain", key] => Mode::Explain(key.to_owned()),
        ["explain"] => return Err("explain needs a key after it".to_owned()),
        ["lamp", writer] => Mode::Lamp(writer.to_owned()),
        ["lamp"] => return Err("lamp needs a writer after it, for example plotter-1/c1".to_owned()),
        ["why"] => Mode::Why(Form::Text),
        ["why", form] | [form] if form.starts_with('-') => Mode::Why(read_form(form)?),
        ["why", ..] => return Err("why takes one of --csv, --json and --html".to_owned()),
        ["log", word, ..] | ["explain" | "lamp", _, word, ..] | [word, ..] => {
            return Err(format!("'{word}' is not understood here"));
        }
    };
    Ok(Asked::Play(day.clone(), mode))
}

/// `-` alone is standard input.
fn is_option(argument: &OsStr) -> bool {
    argument != "-" && argument.to_string_lossy().starts_with('-')
}

fn read_form(form: &str) -> Result<Form, String> {
    match form {
        "--csv" => Ok(Form::Csv),
        "--json" => Ok(Form::Json),
        "--html" => Ok(Form::Html),
        _ => Err(format!("{form} is not an option: use --csv, --json or --html")),
    }
}
