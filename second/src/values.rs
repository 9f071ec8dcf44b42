//! What digits say: plain numbers, rule DT and rule TM.

/// The value of 1 to `most` digits; nothing for any other bytes.
///
/// `most` is at most 10 wherever this is asked, so 64 bits always hold it.
pub fn decimal(bytes: &[u8], most: usize) -> Option<u64> {
    if bytes.is_empty() || bytes.len() > most || !all_digits(bytes) {
        return None;
    }
    let append = |value: u64, digit: &u8| value * 10 + u64::from(digit - b'0');
    Some(bytes.iter().fold(0, append))
}

pub fn all_digits(bytes: &[u8]) -> bool {
    bytes.iter().all(u8::is_ascii_digit)
}

/// Rule DT: the eight digits of CCYYMMDD are a day of the Gregorian calendar.
pub fn is_date(bytes: &[u8]) -> bool {
    if bytes.len() != 8 || !all_digits(bytes) {
        return false;
    }
    let year = u16::from(two_digits(bytes, 0)) * 100 + u16::from(two_digits(bytes, 2));
    let month = two_digits(bytes, 4);
    let day = two_digits(bytes, 6);
    (1..=days_in_month(year, month)).contains(&day)
}

/// 0 for a number that is no month.
fn days_in_month(year: u16, month: u8) -> u8 {
    match month {
        1 | 3 | 5 | 7 | 8 | 10 | 12 => 31,
        4 | 6 | 9 | 11 => 30,
        2 if is_leap_year(year) => 29,
        2 => 28,
        _ => 0,
    }
}

/// Divisible by 4, and not by 100 unless by 400; year 0 is divisible by each.
fn is_leap_year(year: u16) -> bool {
    match (year % 400, year % 100, year % 4) {
        (0, _, _) => true,
        (_, 0, _) => false,
        (_, _, rest) => rest == 0,
    }
}

/// Rule TM: HHMM, HHMMSS, HHMMSSD or HHMMSSDD; decimals are free.
pub fn is_time(bytes: &[u8]) -> bool {
    matches!(bytes.len(), 4 | 6 | 7 | 8)
        && all_digits(bytes)
        && two_digits(bytes, 0) <= 23
        && two_digits(bytes, 2) <= 59
        && (bytes.len() == 4 || two_digits(bytes, 4) <= 59)
}

fn two_digits(digits: &[u8], at: usize) -> u8 {
    (digits[at] - b'0') * 10 + (digits[at + 1] - b'0')
}

#[cfg(test)]
mod tests {
    use super::*;

    #[test]
    fn decimal_takes_one_to_most_digits() {
        assert_eq!(decimal(b"", 6), None);
        assert_eq!(decimal(b"0", 6), Some(0));
        assert_eq!(decimal(b"000042", 6), Some(42));
        assert_eq!(decimal(b"0000042", 6), None);
        assert_eq!(decimal(b"-3", 6), None);
        assert_eq!(decimal(b"+3", 6), None);
        assert_eq!(decimal(b"3 ", 6), None);
    }

    #[test]
    fn ten_digits_do_not_wrap_at_32_bits() {
        assert_eq!(decimal(b"4294967299", 10), Some(4_294_967_299));
        assert_eq!(decimal(b"9999999999", 10), Some(9_999_999_999));
    }

    #[test]
    fn dates_have_eight_digits_a_month_and_a_day() {
        for good in ["20241231", "20240101", "00000101", "99991231"] {
            assert!(is_date(good.as_bytes()), "{good}");
        }
        for bad in [
            "20240100",
            "20240132",
            "20240001",
            "20241301",
            "20249901",
            "2024010A",
            "X0240101",
            "240101",
            "020240101",
            "",
        ] {
            assert!(!is_date(bad.as_bytes()), "{bad}");
        }
    }

    #[test]
    fn months_have_their_lengths() {
        let lengths = [31, 28, 31, 30, 31, 30, 31, 31, 30, 31, 30, 31];
        for (month, length) in (1..).zip(lengths) {
            assert_eq!(days_in_month(2023, month), length, "{month}");
        }
        for no_month in [0, 13, 99] {
            assert_eq!(days_in_month(2023, no_month), 0, "{no_month}");
        }
    }

    #[test]
    fn leap_years_are_divisible_by_4_and_not_by_100_unless_by_400() {
        for leap in [0, 4, 96, 104, 400, 1600, 1904, 1996, 2000, 2024, 9996] {
            assert!(is_leap_year(leap), "{leap}");
        }
        for common in [
            1, 2, 3, 99, 100, 200, 300, 1900, 2023, 2026, 2100, 9900, 9999,
        ] {
            assert!(!is_leap_year(common), "{common}");
        }
    }

    #[test]
    fn times_have_4_6_7_or_8_digits() {
        for good in [
            "0000", "2359", "235959", "0000000", "2359599", "23595999", "00000099",
        ] {
            assert!(is_time(good.as_bytes()), "{good}");
        }
        for bad in [
            "2400",
            "0060",
            "000060",
            "0000600",
            "00006000",
            "240000",
            "006000",
            "00000",
            "000",
            "000000000",
            "00:0",
            "12345A",
            "",
        ] {
            assert!(!is_time(bad.as_bytes()), "{bad}");
        }
    }
}
