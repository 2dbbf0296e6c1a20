//! Numbers of the plain-text form, read and written.

/// What a decimal's digits, read as a whole number, stay below, and the most places after its point.
const MOST_DECIMAL: u64 = 1_000_000_000_000_000;
const MOST_PLACES: usize = 15;
/// The most places after the point with which a number is written.
const MOST_WRITTEN: u32 = 9;

/// Digits alone, up to 4,294,967,295.
pub fn whole(word: &[u8]) -> Option<u32> {
    if !word.iter().all(u8::is_ascii_digit) {
        return None;
    }
    std::str::from_utf8(word).ok()?.parse().ok()
}

pub fn lane_number(word: &[u8]) -> Option<i32> {
    std::str::from_utf8(word).ok()?.parse().ok()
}

/// A number of the edges: a decimal, x and its bits, inf or nan.
pub fn real(word: &[u8]) -> Option<f32> {
    let text = std::str::from_utf8(word).ok()?;
    if let Some(digits) = text.strip_prefix('x') {
        return of_bits(digits);
    }
    let value = magnitude(text.strip_prefix('-').unwrap_or(text))?;
    Some(if text.starts_with('-') { -value } else { value })
}

/// Eight hexadecimal digits in lower case. Of a NaN's bits, a NaN.
fn of_bits(digits: &str) -> Option<f32> {
    let good = digits.len() == 8 && digits.bytes().all(|b| b.is_ascii_digit() || (b'a'..=b'f').contains(&b));
    let bits = u32::from_str_radix(digits, 16).ok().filter(|_| good)?;
    let value = f32::from_bits(bits);
    Some(if value.is_nan() { f32::NAN } else { value })
}

/// A number without its sign. Rust reads a decimal to the nearest f32, ties to even.
fn magnitude(text: &str) -> Option<f32> {
    match text {
        "inf" => Some(f32::INFINITY),
        "nan" => Some(f32::NAN),
        _ => text.parse().ok().filter(|_| is_decimal(text)),
    }
}

/// Digits with at most one point among them: leading zeros do not count.
fn is_decimal(text: &str) -> bool {
    let (before, after) = text.split_once('.').unwrap_or((text, ""));
    let digits = || before.bytes().chain(after.bytes());
    let significant = digits().skip_while(|&b| b == b'0').count();
    digits().next().is_some() && digits().all(|b| b.is_ascii_digit()) && significant <= MOST_PLACES && after.len() <= MOST_PLACES
}

/// A number so that it is read again with the same bits: with the fewest places after the point, else as bits.
pub fn written(x: f32) -> String {
    if x.is_nan() {
        return "nan".into();
    }
    let sign = if x.is_sign_negative() { "-" } else { "" };
    if x.is_infinite() {
        return format!("{sign}inf");
    }
    match (0..=MOST_WRITTEN).find_map(|places| exact(x.abs(), places)) {
        Some(decimal) => sign.to_string() + &decimal,
        None => format!("x{:08x}", x.to_bits()),
    }
}

/// The decimal of that many places after the point, where it means x.
fn exact(x: f32, places: u32) -> Option<String> {
    let text = decimal(scaled(x.to_bits(), places)?, places);
    (text.parse() == Ok(x)).then_some(text)
}

/// The value of bits without a sign times 10 ^ places, rounded to a whole number, a half up; none from 10 ^ 15 on.
pub fn scaled(bits: u32, places: u32) -> Option<u64> {
    let exponent = bits >> 23;
    let fraction = if exponent == 0 { 0 } else { u128::from(bits & 0x7f_ffff | 0x80_0000) };
    let tens = fraction * 10u128.pow(places);
    let value = match exponent {
        // 2 ^ 50 and more, which is above 10 ^ 15
        177.. => return None,
        150.. => tens << (exponent - 150),
        // below 10 ^ -9 by far
        0..=49 => 0,
        _ => ((tens >> (149 - exponent)) + 1) >> 1,
    };
    u64::try_from(value).ok().filter(|&n| n < MOST_DECIMAL)
}

/// A whole number with a point before its last places.
pub fn decimal(n: u64, places: u32) -> String {
    if places == 0 {
        return n.to_string();
    }
    let tens = 10u64.pow(places);
    format!("{}.{:0width$}", n / tens, n % tens, width = places as usize)
}

#[cfg(test)]
mod tests {
    use super::*;

    #[test]
    fn decimals_are_read_to_the_nearest() {
        for text in ["0", "-0", "1.", ".5", "-3.5", "40", "0.1", "16777217", "16777219", "999999999999999", "0.000000000000001"] {
            assert_eq!(real(text.as_bytes()).map(f32::to_bits), text.parse().ok().map(f32::to_bits), "{text}");
        }
        assert_eq!(real(b"00000000000000000000000007"), Some(7.0));
        assert_eq!(real(b"x3dcccccd"), Some(0.1));
        assert_eq!(real(b"-inf"), Some(f32::NEG_INFINITY));
        assert!(real(b"-nan").is_some_and(f32::is_nan));
        assert!(real(b"x7f800001").is_some_and(f32::is_nan));
    }

    #[test]
    fn what_is_no_number() {
        let bad = [
            "",
            "-",
            ".",
            "-.",
            "1e3",
            "1.2.3",
            "+1",
            "x",
            "x1",
            "x3DCCCCCD",
            "x3dcccccd0",
            "x+dcccccd",
            "-x3dcccccd",
            "infinity",
            "NaN",
            "--1",
            "1_0",
            "0x10",
        ];
        for text in bad {
            assert_eq!(real(text.as_bytes()), None, "{text}");
        }
        assert_eq!(real(b"1000000000000000"), None);
        assert_eq!(real(b"0.1234567890123456"), None);
        assert_eq!(real(b"\xff"), None);
    }

    #[test]
    fn whole_numbers() {
        assert_eq!(whole(b"4294967295"), Some(u32::MAX));
        assert_eq!(whole(b"007"), Some(7));
        for text in ["", "4294967296", "+1", "-1", "1.0"] {
            assert_eq!(whole(text.as_bytes()), None, "{text}");
        }
        assert_eq!(lane_number(b"+2147483647"), Some(i32::MAX));
        assert_eq!(lane_number(b"-2147483648"), Some(i32::MIN));
        assert_eq!(lane_number(b"2147483648"), None);
    }

    /// Every exponent with both signs, and some fractions.
    #[test]
    fn what_is_written_is_read_again() {
        for high in 0..512u32 {
            for low in [0, 1, 2, 0x2a_aaaa, 0x3f_ffff, 0x40_0000, 0x55_5555, 0x7f_fffe, 0x7f_ffff] {
                let x = f32::from_bits(high << 23 | low);
                let again = real(written(x).as_bytes());
                assert!(again.is_some_and(|y| y.to_bits() == x.to_bits() || (x.is_nan() && y.is_nan())), "{x:e} as {}", written(x));
            }
        }
    }

    #[test]
    fn the_fewest_places() {
        for (x, text) in [(0.0, "0"), (-0.0, "-0"), (70.25, "70.25"), (0.1, "0.1"), (-3.5, "-3.5"), (16_777_216.0, "16777216"), (1e-3, "0.001")] {
            assert_eq!(written(x), text);
        }
        assert_eq!(written(123_456_789_012.0), "123456790528");
        assert_eq!(written(1e15), "999999986991104");
        assert_eq!(written(1_125_899_906_842_624.0), "x58800000");
        assert_eq!(written(1e-10), "x2edbe6ff");
    }
}
