//! Figures as a reader wants them, and where to look for them.

/// A decimal number with commas between the thousands of its whole part.
pub fn grouped(number: &str) -> String {
    let (sign, size) = number.strip_prefix('-').map_or(("", number), |size| ("-", size));
    let (whole, rest) = size.split_at(size.find('.').unwrap_or(size.len()));
    let mut text = sign.to_string();
    for (i, digit) in whole.chars().enumerate() {
        if i > 0 && (whole.len() - i) % 3 == 0 {
            text.push(',');
        }
        text.push(digit);
    }
    text + rest
}

/// A whole number of the smallest units in decimals, by whole numbers alone.
pub fn decimal(number: i64, digits: u32) -> String {
    let unit = 10u64.pow(digits);
    let size = number.unsigned_abs();
    let sign = if number < 0 { "-" } else { "" };
    format!("{sign}{}.{:0width$}", size / unit, size % unit, width = digits as usize)
}

/// A page's words with single spaces, so that a sentence is found wherever its lines break.
pub fn in_one_line(page: &str) -> String {
    page.split_whitespace().collect::<Vec<&str>>().join(" ")
}

#[cfg(test)]
mod tests {
    use super::*;

    #[test]
    fn thousands_are_apart() {
        assert_eq!(grouped("7"), "7");
        assert_eq!(grouped("123"), "123");
        assert_eq!(grouped("1234"), "1,234");
        assert_eq!(grouped("-123456.789012"), "-123,456.789012");
        assert_eq!(grouped("1234567.5"), "1,234,567.5");
        assert_eq!(grouped("-0.0040"), "-0.0040");
    }

    #[test]
    fn decimals_have_all_their_digits() {
        assert_eq!(decimal(0, 2), "0.00");
        assert_eq!(decimal(-1, 2), "-0.01");
        assert_eq!(decimal(-99, 2), "-0.99");
        assert_eq!(decimal(138_816, 2), "1388.16");
        assert_eq!(decimal(-1_000_007, 6), "-1.000007");
    }
}
