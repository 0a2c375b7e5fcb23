//! The fields of packets and of accounts: sessions, numbers, usernames and passwords.

use crate::mold::Session;

fn behind_spaces(field: &[u8]) -> &[u8] {
    let text = field.iter().position(|&byte| byte != b' ');
    &field[text.unwrap_or(field.len())..]
}

/// Spaces, then letters or digits.
pub fn is_session_or_blank(field: &Session) -> bool {
    behind_spaces(field).iter().all(u8::is_ascii_alphanumeric)
}

/// Spaces, then at least one letter or digit.
pub fn is_session(field: &Session) -> bool {
    is_session_or_blank(field) && field != super::BLANK
}

/// The value of spaces and then one or more digits.
pub fn number(field: &[u8]) -> Option<u64> {
    let digits = behind_spaces(field);
    if digits.is_empty() {
        return None;
    }
    digits.iter().try_fold(0_u64, |value, &byte| {
        let digit = char::from(byte).to_digit(10)?;
        value.checked_mul(10)?.checked_add(digit.into())
    })
}

/// At least one letter or digit, then spaces alone.
pub fn is_sound(field: &[u8]) -> bool {
    let text = field.iter().position(|byte| !byte.is_ascii_alphanumeric());
    let (text, padding) = field.split_at(text.unwrap_or(field.len()));
    !text.is_empty() && padding.iter().all(|&byte| byte == b' ')
}
