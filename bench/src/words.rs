//! Numbers as text.

/// A time in nanoseconds: one digit behind the point where it is short.
pub fn nanos(time: f64) -> String {
    if time < 99.95 {
        format!("{time:.1}")
    } else {
        whole(time.round() as usize)
    }
}

/// A ratio.
pub fn ratio(value: f64) -> String {
    format!("{value:.2}")
}

/// A whole number, with a comma at the thousands.
pub fn whole(number: usize) -> String {
    match number {
        0..=999 => number.to_string(),
        _ => format!("{},{:03}", whole(number / 1000), number % 1000),
    }
}

/// So many of something.
pub fn many(count: usize, word: &str) -> String {
    format!("{} {word}{}", whole(count), if count == 1 { "" } else { "s" })
}
