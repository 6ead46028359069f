//! What the programs here share: numbers among their arguments, and lines as
//! they can be printed.

/// A number, in which `_` may part the digits.
pub fn number<T: std::str::FromStr>(name: &str, value: &str) -> Result<T, String> {
    let digits: String = value.chars().filter(|digit| *digit != '_').collect();
    digits
        .parse()
        .map_err(|_| format!("{name} {value} is no number"))
}

/// A line as it can be printed: without its line end, other bytes escaped.
pub fn shown(line: &[u8]) -> String {
    let text = line.strip_suffix(b"\n").unwrap_or(line);
    match text.is_empty() {
        true => "(an empty line)".into(),
        false => text.escape_ascii().to_string(),
    }
}
