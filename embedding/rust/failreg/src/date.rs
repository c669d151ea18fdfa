//! The date of a response.

use std::fmt;
use std::time::{SystemTime, UNIX_EPOCH};

/// The days of the week, from the first of 1970.
const DAYS: [&str; 7] = ["Thu", "Fri", "Sat", "Sun", "Mon", "Tue", "Wed"];

/// The months, from March on, so that a leap day comes last.
const MONTHS: [&str; 12] = [
    "Mar", "Apr", "May", "Jun", "Jul", "Aug", "Sep", "Oct", "Nov", "Dec", "Jan", "Feb",
];

/// How many days there are between 1 March of the year 0 and 1 January 1970.
const DAYS_TO_1970: u64 = 719_468;

/// A time in the form of `Date`, such as `Sun, 06 Nov 1994 08:49:37 GMT`.
pub(crate) struct Date {
    days: u64,
    second: u64,
}

/// Returns the date of a time, if its year is 1970 to 9999.
pub(crate) fn date_of(time: SystemTime) -> Option<Date> {
    let seconds = time.duration_since(UNIX_EPOCH).ok()?.as_secs();
    let (days, second) = (seconds / 86_400, seconds % 86_400);
    let (year, _, _) = year_month_day(days + DAYS_TO_1970);
    (year <= 9_999).then_some(Date { days, second })
}

impl fmt::Display for Date {
    fn fmt(&self, f: &mut fmt::Formatter<'_>) -> fmt::Result {
        let (year, month, day) = year_month_day(self.days + DAYS_TO_1970);
        let (weekday, month) = (DAYS[(self.days % 7) as usize], MONTHS[month as usize]);
        let (hour, minute, second) = (self.second / 3_600, self.second / 60 % 60, self.second % 60);
        write!(
            f,
            "{weekday}, {day:02} {month} {year:04} {hour:02}:{minute:02}:{second:02} GMT"
        )
    }
}

// Returns the year, the month from March on, and the day, this many days after 1 March of the year
// 0. Years start in March here, so that a leap day is their last.
fn year_month_day(days: u64) -> (u64, u64, u64) {
    let (of_400_years, days) = (days / 146_097, days % 146_097);
    let put_in = days / 1_460 - days / 36_524 + days / 146_096;
    let years = (days - put_in) / 365;
    let days = days - (365 * years + years / 4 - years / 100);
    // The lengths of the months repeat every five months, which have 153 days.
    let month = (5 * days + 2) / 153;
    let day = days - (153 * month + 2) / 5 + 1;
    (
        400 * of_400_years + years + u64::from(month >= 10),
        month,
        day,
    )
}

#[cfg(test)]
mod tests {
    use super::*;
    use std::time::Duration;

    #[test]
    fn a_time_has_its_date() {
        for (seconds, date) in [
            (0, "Thu, 01 Jan 1970 00:00:00 GMT"),
            (784_111_777, "Sun, 06 Nov 1994 08:49:37 GMT"),
            (951_782_399, "Mon, 28 Feb 2000 23:59:59 GMT"),
            (951_782_400, "Tue, 29 Feb 2000 00:00:00 GMT"),
            (951_868_800, "Wed, 01 Mar 2000 00:00:00 GMT"),
            (1_709_164_800, "Thu, 29 Feb 2024 00:00:00 GMT"),
            (4_107_542_399, "Sun, 28 Feb 2100 23:59:59 GMT"),
            (4_107_542_400, "Mon, 01 Mar 2100 00:00:00 GMT"),
            (253_402_300_799, "Fri, 31 Dec 9999 23:59:59 GMT"),
        ] {
            let time = UNIX_EPOCH + Duration::from_secs(seconds);
            let told = date_of(time).map(|date| date.to_string());
            assert_eq!(told.as_deref(), Some(date), "{seconds}");
        }
        for none in [
            UNIX_EPOCH - Duration::from_secs(1),
            UNIX_EPOCH + Duration::from_secs(253_402_300_800),
        ] {
            assert!(date_of(none).is_none());
        }
    }

    // Each day of 400 years follows the one before it.
    #[test]
    fn a_day_follows_another() {
        let mut before = (1969, 9, 31);
        for days in 0..146_097 {
            let (year, month, day) = year_month_day(days + DAYS_TO_1970);
            let (last_year, last_month, last_day) = before;
            let is_next_day = (year, month, day) == (last_year, last_month, last_day + 1);
            let is_next_month = day == 1 && month == (last_month + 1) % 12;
            let is_next_year = year == last_year + u64::from(last_month == 9);
            assert!(is_next_day || is_next_month && is_next_year, "{days}");
            before = (year, month, day);
        }
        assert_eq!(before, (2369, 9, 31));
    }
}
