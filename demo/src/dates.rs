//! Dates of the Gregorian calendar as days since 1970-01-01.

/// From this second on a time is shown with its date: 1974-01-01. No day's clock of hours goes so far.
pub const FIRST_SHOWN: i64 = 1_461 * 86_400;

/// Whether a word starts as a date does: four digits, a hyphen, a digit.
pub fn is_date(word: &str) -> bool {
    let b = word.as_bytes();
    b.len() >= 10 && b[..4].iter().all(u8::is_ascii_digit) && b[4] == b'-' && b[5].is_ascii_digit()
}

/// The days of `YYYY-MM-DD`, from 1974 to 2037: later seconds do not fit the 31 bits of a time.
pub fn days(date: &str) -> Option<i64> {
    let mut parts = date.splitn(3, '-');
    let mut number = |digits: usize| {
        let part = parts.next().filter(|p| p.len() == digits)?;
        part.bytes().all(|b| b.is_ascii_digit()).then(|| part.parse::<i64>().ok())?
    };
    let (year, month, day) = (number(4)?, number(2)?, number(2)?);
    let known = (1974..=2037).contains(&year) && (1..=12).contains(&month);
    (known && (1..=length(year, month)).contains(&day)).then(|| count(year, month, day))
}

fn length(year: i64, month: i64) -> i64 {
    match month {
        2 if year % 4 == 0 && (year % 100 != 0 || year % 400 == 0) => 29,
        2 => 28,
        4 | 6 | 9 | 11 => 30,
        _ => 31,
    }
}

/// Years start in March here, so that the leap day is their last.
fn count(year: i64, month: i64, day: i64) -> i64 {
    let year = if month <= 2 { year - 1 } else { year };
    let month = (month + 9) % 12;
    let of_year = (153 * month + 2) / 5 + day - 1;
    365 * year + year / 4 - year / 100 + year / 400 + of_year - 719_468
}

/// `YYYY-MM-DD` of days since 1970-01-01, not negative.
pub fn show(days: i64) -> String {
    let days = days + 719_468;
    let (era, of_era) = (days / 146_097, days % 146_097);
    let year = (of_era - of_era / 1_460 + of_era / 36_524 - of_era / 146_096) / 365;
    let of_year = of_era - (365 * year + year / 4 - year / 100);
    let shifted = (5 * of_year + 2) / 153;
    let (day, month) = (of_year - (153 * shifted + 2) / 5 + 1, (shifted + 2) % 12 + 1);
    let year = era * 400 + year + i64::from(month <= 2);
    format!("{year:04}-{month:02}-{day:02}")
}

#[cfg(test)]
mod tests {
    use super::*;

    #[test]
    fn every_day_comes_back() {
        let first = days("1974-01-01").expect("a date");
        assert_eq!(first * 86_400, FIRST_SHOWN);
        let mut last = String::new();
        for day in first..=days("2037-12-31").expect("a date") {
            let shown = show(day);
            assert_eq!(days(&shown), Some(day));
            assert!(shown > last);
            last = shown;
        }
    }
}
