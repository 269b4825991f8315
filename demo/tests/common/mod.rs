//! The program, run by tests.
#![allow(dead_code)]

pub mod large;

use std::io::Write;
use std::process::{Command, Output, Stdio};
use std::time::{Duration, Instant};

pub fn demo(arguments: &[&str]) -> Output {
    let mut command = Command::new(env!("CARGO_BIN_EXE_demo"));
    command.current_dir(env!("CARGO_MANIFEST_DIR")).args(arguments);
    command.output().expect("the program starts")
}

/// With bytes on its standard input.
pub fn piped(arguments: &[&str], bytes: &[u8]) -> Output {
    let mut command = Command::new(env!("CARGO_BIN_EXE_demo"));
    command.args(arguments);
    fed(command, bytes)
}

/// A line for the shell, with bytes on its standard input.
pub fn shell(line: &str, bytes: &[u8]) -> Output {
    let mut command = Command::new("sh");
    command.args(["-c", line]);
    fed(command, bytes)
}

fn fed(mut command: Command, bytes: &[u8]) -> Output {
    command.stdin(Stdio::piped()).stdout(Stdio::piped()).stderr(Stdio::piped());
    let mut child = command.spawn().expect("the program starts");
    let mut input = child.stdin.take().expect("it has an input");
    // A program that stops early does not read all of it.
    let _ = input.write_all(bytes);
    drop(input);
    child.wait_with_output().expect("the program ends")
}

pub fn text(bytes: &[u8]) -> String {
    String::from_utf8_lossy(bytes).into_owned()
}

/// A file of the test's own.
pub fn written(name: &str, bytes: &[u8]) -> String {
    let path = std::path::Path::new(env!("CARGO_TARGET_TMPDIR")).join(name);
    std::fs::write(&path, bytes).expect("the file is written");
    path.to_string_lossy().into_owned()
}

/// Turned down with an exit status and a message, and not by a panic.
pub fn turned_down(arguments: &[&str], status: i32, says: &str) {
    let output = demo(arguments);
    let said = text(&output.stderr);
    assert_eq!(output.status.code(), Some(status), "{said}");
    assert!(said.contains(says) && !said.contains("panicked"), "{said}");
    assert!(output.stdout.is_empty());
}

/// Whether a command ended well within some seconds; it is ended where it did not.
pub fn ends_within(mut command: Command, seconds: u64) -> bool {
    command.stdin(Stdio::null()).stdout(Stdio::null()).stderr(Stdio::null());
    let mut child = command.spawn().expect("the program starts");
    let started = Instant::now();
    while started.elapsed() < Duration::from_secs(seconds) {
        if let Some(status) = child.try_wait().expect("the program can be waited for") {
            return status.success();
        }
        std::thread::sleep(Duration::from_millis(50));
    }
    let _ = child.kill();
    let _ = child.wait();
    false
}

/// Tags that open and close one another, attributes in quotes: what an XML reader would take.
pub fn well_formed(page: &str) -> Vec<String> {
    let mut open: Vec<&str> = Vec::new();
    let mut seen = Vec::new();
    let body = page.strip_prefix("<!DOCTYPE html>").expect("a page");
    for piece in body.split('<').skip(1) {
        let (tag, text) = piece.split_once('>').expect("a tag ends");
        let style = open.last() == Some(&"style") || tag == "style";
        assert!(style || !text.contains('>'), "{piece}");
        assert_eq!(tag.matches('"').count() % 2, 0, "{tag}");
        if let Some(name) = tag.strip_prefix('/') {
            assert_eq!(open.pop(), Some(name), "{piece}");
            continue;
        }
        let name = tag.split([' ', '/']).next().unwrap_or_default();
        seen.push(tag.to_owned());
        if !tag.ends_with('/') {
            open.push(name);
        }
    }
    assert!(open.is_empty(), "{open:?}");
    seen
}

/// A browser, where there is one; with CI=true there has to be one.
pub fn browser() -> Option<&'static str> {
    let found = ["chromium", "chromium-browser", "google-chrome"]
        .into_iter()
        .find(|name| Command::new(name).arg("--version").output().is_ok());
    if found.is_none() {
        left_out("the page in a browser", "no chromium");
    }
    found
}

/// Says that a part is left out, in the file that LEFT_OUT names where it does. With CI=true that is a failure.
pub fn left_out(part: &str, why: &str) {
    let line = format!("left out: {part}: {why}");
    let set = |name: &str| std::env::var(name).ok();
    assert!(set("CI").as_deref() != Some("true"), "{line}");
    eprintln!("{line}");
    if let Some(path) = set("LEFT_OUT") {
        let file = std::fs::OpenOptions::new().append(true).create(true).open(path);
        writeln!(file.expect("LEFT_OUT can be opened"), "{line}").expect("LEFT_OUT can be written");
    }
}

/// Lets a browser make something of a page, with a profile of its own.
pub fn browsed(browser: &str, page: &str, words: &[&str]) {
    let profile = format!("{page}.browser");
    let mut command = Command::new(browser);
    command
        .args(["--headless", "--no-sandbox", "--disable-gpu", "--hide-scrollbars"])
        .arg(format!("--user-data-dir={profile}"))
        .args(words)
        .arg(format!("file://{page}"));
    assert!(ends_within(command, 120), "{browser} {words:?}");
}

/// Prints a page; for each sheet of paper whether there is a letter on it.
pub fn printed(browser: &str, page: &str) -> Vec<bool> {
    let paper = format!("{page}.pdf");
    let to = format!("--print-to-pdf={paper}");
    browsed(browser, page, &["--no-pdf-header-footer", &to]);
    let bytes = std::fs::read(&paper).expect("the page is printed");
    let text = String::from_utf8_lossy(&bytes);
    let sheets = text.split("/Type /Page\n").skip(1);
    sheets.map(|sheet| sheet.split("endobj").next().is_some_and(|s| s.contains("/Font"))).collect()
}
