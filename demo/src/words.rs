//! Keys, GUIDs and times as a person writes and reads them.

use crate::dates;
use dcps::{KeyHash, Time};
use std::time::Duration;

/// A time or a clock in nanoseconds; both fit, by refusals 4 and 5.
pub type Moment = i64;

const SECOND: i128 = 1_000_000_000;

/// A word of the file in a message: printable, and not too long.
pub fn quoted(word: &str) -> String {
    let shown: String = word.chars().take(40).flat_map(char::escape_debug).collect();
    let more = if word.chars().nth(40).is_some() { "…" } else { "" };
    format!("'{shown}{more}'")
}

// ---- keys and GUIDs

/// Letters, digits and signs, at least one.
pub fn is_name(word: &str) -> bool {
    !word.is_empty() && word.bytes().all(|b| b.is_ascii_graphic())
}

/// Whether a word is written in hexadecimal digits, or tries to be.
pub fn is_digits(word: &str) -> bool {
    word.starts_with("0x")
}

/// Up to N bytes of text, zeros behind it.
fn text<const N: usize>(word: &str) -> Option<[u8; N]> {
    if word.len() > N || !is_name(word) {
        return None;
    }
    let mut bytes = [0; N];
    bytes[..word.len()].copy_from_slice(word.as_bytes());
    Some(bytes)
}

fn hex<const N: usize>(digits: &str) -> Option<[u8; N]> {
    if digits.len() != 2 * N || !digits.bytes().all(|b| b.is_ascii_hexdigit()) {
        return None;
    }
    let mut bytes = [0; N];
    for (place, byte) in bytes.iter_mut().enumerate() {
        *byte = u8::from_str_radix(&digits[2 * place..2 * place + 2], 16).ok()?;
    }
    Some(bytes)
}

/// A name, or 0x and all digits.
fn named<const N: usize>(word: &str) -> Option<[u8; N]> {
    match word.strip_prefix("0x") {
        Some(digits) => hex(digits),
        None => text(word),
    }
}

/// A KeyHash in 32 digits.
pub fn key_digits(word: &str) -> Option<KeyHash> {
    word.strip_prefix("0x").and_then(hex)
}

pub fn guid(word: &str) -> Result<[u8; 16], String> {
    let parsed = match word.strip_prefix("0x") {
        Some(digits) => hex(digits),
        None => word.split_once('/').and_then(|(participant, entity)| {
            let prefix: [u8; 12] = text(participant)?;
            let entity: [u8; 4] =
                text(entity).filter(|_| entity != "*" && !entity.contains('/'))?;
            let mut guid = [0; 16];
            guid[..12].copy_from_slice(&prefix);
            guid[12..].copy_from_slice(&entity);
            Some(guid)
        }),
    };
    parsed.ok_or_else(|| {
        format!(
            "{} is not a writer: write PARTICIPANT/ENTITY with up to 12 and 4 characters, or 0x and 32 hexadecimal digits",
            quoted(word)
        )
    })
}

/// `PARTICIPANT/*`, which names all writers of a participant; none where the word has another form.
pub fn participant(word: &str) -> Option<Result<[u8; 12], String>> {
    let name = word.strip_suffix("/*")?;
    Some(named(name).ok_or_else(|| {
        format!(
            "{} is not a participant: write up to 12 characters, or 0x and 24 hexadecimal digits, before /*",
            quoted(word)
        )
    }))
}

/// The text of bytes that a name was written to.
fn as_text(bytes: &[u8]) -> Option<&str> {
    let end = bytes.iter().rposition(|b| *b != 0)? + 1;
    let name = std::str::from_utf8(&bytes[..end]).ok()?;
    (is_name(name) && !is_digits(name)).then_some(name)
}

pub fn as_hex(bytes: &[u8]) -> String {
    bytes.iter().fold(String::from("0x"), |digits, byte| digits + &format!("{byte:02x}"))
}

/// A key that is not hashed.
pub fn show_short_key(key: &KeyHash) -> String {
    as_text(key).map_or_else(|| as_hex(key), str::to_owned)
}

pub fn show_guid(guid: &[u8; 16]) -> String {
    match (as_text(&guid[..12]), as_text(&guid[12..])) {
        (Some(participant), Some(entity))
            if !participant.contains('/') && !entity.contains('/') && entity != "*" =>
        {
            format!("{participant}/{entity}")
        }
        _ => as_hex(guid),
    }
}

// ---- times

/// Decimal digits as a whole number and a fraction of `unit`, exact.
fn decimal(word: &str, unit: i128) -> Option<i128> {
    let (whole, fraction) = word.split_once('.').unwrap_or((word, ""));
    let digits = |part: &str| part.len() <= 20 && part.bytes().all(|b| b.is_ascii_digit());
    if whole.is_empty() || !digits(whole) || !digits(fraction) || word.ends_with('.') {
        return None;
    }
    let parts = 10_i128.pow(fraction.len() as u32);
    let number: i128 = format!("{whole}{fraction}").parse().ok()?;
    let scaled = number.checked_mul(unit)?;
    (scaled % parts == 0).then_some(scaled / parts)
}

/// Nanoseconds of `08:15` or `08:15:30.5`.
fn of_day(word: &str) -> Option<i128> {
    let mut parts = word.splitn(3, ':');
    let hours = decimal(parts.next()?, 1)?;
    let minutes = decimal(parts.next()?, 1).filter(|m| *m < 60)?;
    let seconds =
        parts.next().map_or(Some(0), |s| decimal(s, SECOND)).filter(|s| *s < 60 * SECOND)?;
    hours.checked_mul(3_600)?.checked_mul(SECOND)?.checked_add(minutes * 60 * SECOND + seconds)
}

/// Nanoseconds since 1970 of `2026-11-15`, with `T08:15` behind it or without.
fn date(word: &str) -> Option<i128> {
    let (date, time) = word.split_once(['T', ' ']).unwrap_or((word, "00:00"));
    let days = i128::from(dates::days(date)?);
    let time = of_day(time.trim_end_matches('Z')).filter(|t| *t < 86_400 * SECOND)?;
    Some(days * 86_400 * SECOND + time)
}

/// Nanoseconds of `3s`, `2.5s`, `250ms`, `10m`, `8h`, a time of day or a date, with a minus or without.
fn nanos(word: &str) -> Option<i128> {
    if let Some(rest) = word.strip_prefix('-') {
        return (!rest.starts_with('-')).then(|| nanos(rest).map(|n| -n))?;
    }
    if dates::is_date(word) {
        return date(word);
    }
    if word.contains(':') {
        return of_day(word);
    }
    let units = [
        ("ns", 1),
        ("us", 1_000),
        ("ms", 1_000_000),
        ("s", SECOND),
        ("m", 60 * SECOND),
        ("h", 3_600 * SECOND),
    ];
    units.iter().find_map(|(unit, size)| decimal(word.strip_suffix(unit)?, *size))
}

fn span(word: &str) -> Result<i128, String> {
    nanos(word).ok_or_else(|| {
        format!(
            "{} is not a time: write it as 3s, 2.5s, 250ms, 10m, 08:15, 08:15:30 or 2026-11-15 08:15 (1974 to 2037)",
            quoted(word)
        )
    })
}

/// Seconds are rounded down, so that a negative time has its nanoseconds above them.
pub fn time(word: &str) -> Result<Time, String> {
    let nanos = span(word)?;
    let sec = i32::try_from(nanos.div_euclid(SECOND))
        .map_err(|_| format!("{} is beyond the 2^31 seconds that a time can have", quoted(word)))?;
    Ok(Time { sec, nanosec: nanos.rem_euclid(SECOND) as u32 })
}

/// A clock or a delay.
pub fn duration(word: &str) -> Result<Duration, String> {
    let nanos = span(word)?;
    if nanos < 0 {
        return Err(format!(
            "{} is negative, which no delay can be and no clock (of match, assert, expire, lapse); a time can",
            quoted(word)
        ));
    }
    u64::try_from(nanos)
        .map(Duration::from_nanos)
        .map_err(|_| format!("{} is beyond 2^64 nanoseconds", quoted(word)))
}

/// A delay in nanoseconds, or never.
pub fn delay(word: &str) -> Result<u128, String> {
    if word == "never" {
        return Ok(u128::MAX);
    }
    duration(word).map(|d| d.as_nanos())
}

fn show_fraction(nanos: u32) -> String {
    if nanos == 0 {
        return String::new();
    }
    let digits = format!(".{nanos:09}");
    digits.trim_end_matches('0').to_owned()
}

/// The hour, or date and hour where it is so late that a date was meant.
pub fn show_moment(moment: Moment) -> String {
    let nanos = i128::from(moment);
    let sign = if nanos < 0 { "-" } else { "" };
    let seconds = nanos.abs() / SECOND;
    let fraction = show_fraction((nanos.abs() % SECOND) as u32);
    let (date, seconds) = match i64::try_from(nanos.div_euclid(SECOND)) {
        Ok(s) if s >= dates::FIRST_SHOWN => {
            (format!("{} ", dates::show(s / 86_400)), i128::from(s % 86_400))
        }
        _ => (String::new(), seconds),
    };
    let (hours, minutes) = (seconds / 3_600, seconds / 60 % 60);
    format!("{date}{sign}{hours:02}:{minutes:02}:{:02}{fraction}", seconds % 60)
}

pub fn moment_of_time(time: Time) -> Moment {
    i64::from(time.sec) * SECOND as i64 + i64::from(time.nanosec)
}

pub fn moment_of_clock(clock: Duration) -> Moment {
    i64::try_from(clock.as_nanos()).unwrap_or(i64::MAX)
}

pub fn show_time(time: Time) -> String {
    show_moment(moment_of_time(time))
}

pub fn show_clock(clock: Duration) -> String {
    show_moment(moment_of_clock(clock))
}

/// A span of time as it is said: `9 min`, `1 h 20 min`, `1.5 s`.
pub fn spoken(span: Moment) -> String {
    let span = span.max(0);
    let (seconds, fraction) = (span / SECOND as i64, (span % SECOND as i64) as u32);
    let (days, hours, minutes) = (seconds / 86_400, seconds / 3_600 % 24, seconds / 60 % 60);
    let mut parts = Vec::new();
    for (number, unit) in [(days, "d"), (hours, "h"), (minutes, "min")] {
        if number != 0 {
            parts.push(format!("{number} {unit}"));
        }
    }
    if parts.is_empty() || seconds % 60 != 0 || fraction != 0 {
        parts.push(format!("{}{} s", seconds % 60, show_fraction(fraction)));
    }
    parts.truncate(2);
    parts.join(" ")
}

pub fn show_delay(delay: Duration) -> String {
    let seconds = delay.as_secs();
    match delay.subsec_nanos() {
        0 if seconds != 0 && seconds.is_multiple_of(3_600) => format!("{}h", seconds / 3_600),
        0 if seconds != 0 && seconds.is_multiple_of(60) => format!("{}m", seconds / 60),
        fraction => format!("{seconds}{}s", show_fraction(fraction)),
    }
}

#[cfg(test)]
mod tests {
    use super::*;

    #[test]
    fn names_come_back_as_written() {
        for word in ["press-1/w1", "a/b", "0x00112233445566778899aabbccddeeff"] {
            assert_eq!(guid(word).map(|g| show_guid(&g)), Ok(word.to_owned()));
        }
        for word in ["press-1", "/w1", "press-1/", "press-1/*", "a/b/c", "0x12", "thirteen-long/w"]
        {
            assert!(guid(word).is_err(), "{word}");
        }
        assert_eq!(participant("a/*").and_then(Result::ok).map(|p| p[0]), Some(b'a'));
        assert!(participant("a/b").is_none());
        assert!(participant("/*").is_some_and(|p| p.is_err()));
    }

    const NO_TIMES: &[&str] = &[
        "",
        "2026-02-29",
        "2026-13-01",
        "2026-11-15T24:00",
        "1970-01-01",
        "2038-01-19",
        "s",
        "3",
        "3.s",
        ".5s",
        "--3s",
        "3x",
        "08:60",
        "08:15:60",
        ":15",
        "08:",
        "1.5ns",
        "2147483648s",
        "99999999999999999999999s",
        "9999999999999999h",
        "08:15:30:1",
        "3 s",
        "∞",
    ];

    #[test]
    fn times_are_exact() {
        let at = |sec, nanosec| Ok(Time { sec, nanosec });
        assert_eq!(time("3s"), at(3, 0));
        assert_eq!(time("2.5s"), at(2, 500_000_000));
        assert_eq!(time("-3s"), at(-3, 0));
        assert_eq!(time("-0.5s"), at(-1, 500_000_000));
        assert_eq!(time("1ns"), at(0, 1));
        assert_eq!(time("08:15"), at(29_700, 0));
        assert_eq!(time("08:15:30.25"), at(29_730, 250_000_000));
        assert_eq!(time("2147483647s"), at(i32::MAX, 0));
        assert_eq!(time("2026-11-15T08:15"), at(1_794_730_500, 0));
        assert_eq!(time("2026-11-15T08:15:30.5Z"), at(1_794_730_530, 500_000_000));
        assert_eq!(time("2024-02-29"), at(1_709_164_800, 0));
        for word in NO_TIMES {
            assert!(time(word).is_err(), "{word}");
        }
        assert!(duration("-1s").is_err());
        assert!(duration("9999999999999h").is_err());
        assert_eq!(delay("never"), Ok(u128::MAX));
    }

    #[test]
    fn times_as_shown() {
        assert_eq!(show_time(Time { sec: 29_730, nanosec: 250_000_000 }), "08:15:30.25");
        assert_eq!(show_time(Time { sec: -1, nanosec: 500_000_000 }), "-00:00:00.5");
        assert_eq!(show_delay(Duration::from_secs(600)), "10m");
        assert_eq!(show_delay(Duration::from_millis(1_500)), "1.5s");
        assert_eq!(show_delay(Duration::ZERO), "0s");
        assert_eq!(show_time(Time { sec: 1_794_730_530, nanosec: 0 }), "2026-11-15 08:15:30");
        assert_eq!(spoken(540 * SECOND as i64), "9 min");
        assert_eq!(spoken(4_800 * SECOND as i64), "1 h 20 min");
        assert_eq!(spoken(1_500_000_000), "1.5 s");
        assert_eq!(spoken(0), "0 s");
    }
}
