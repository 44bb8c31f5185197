//! Options of the programs.

/// The number after the option, the usual one where the option is not given, or nothing where it
/// is not a number.
pub fn number(words: &[String], option: &str, usual: u64) -> Option<u64> {
    Some(if_given(words, option)?.unwrap_or(usual))
}

/// The number after the option if the option is given, or nothing where it is not a number.
pub fn if_given(words: &[String], option: &str) -> Option<Option<u64>> {
    match words.iter().position(|word| word == option) {
        Some(i) => Some(Some(words.get(i + 1)?.parse().ok()?)),
        None => Some(None),
    }
}
