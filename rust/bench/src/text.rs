//! Figures in words.

use crate::results::Time;

/// A time with a unit in which it is easily read.
pub fn time(time: Time) -> String {
    match time {
        Time::Took(time) => microseconds(time),
        Time::Over => String::from("over"),
        Time::Unknown => String::from("–"),
    }
}

/// So many trials.
pub fn trials(count: usize) -> String {
    format!("{count} trial{}", if count == 1 { "" } else { "s" })
}

/// So many microseconds, with three digits.
pub fn microseconds(time: f64) -> String {
    let (number, unit) = match time {
        time if time < 999.5 => (time, "µs"),
        time if time < 999_500.0 => (time / 1e3, "ms"),
        time => (time / 1e6, "s"),
    };
    format!("{} {unit}", digits(number))
}

/// Three digits, or all that stand before the point.
pub fn digits(number: f64) -> String {
    match number {
        number if number < 9.995 => format!("{number:.2}"),
        number if number < 99.95 => format!("{number:.1}"),
        number => format!("{number:.0}"),
    }
}

#[cfg(test)]
mod tests {
    use super::*;

    #[test]
    fn times_have_three_digits() {
        let words = [0.126, 9.99, 9.999, 99.99, 999.9, 12_345.0, 4_321_000.0].map(microseconds);
        assert_eq!(words, ["0.13 µs", "9.99 µs", "10.0 µs", "100 µs", "1.00 ms", "12.3 ms", "4.32 s"]);
    }
}
