//! Document 01, "SoupBinTCP packets", the fields; and "The lock", the sound field.

use super::Name;

fn without_leading_spaces(field: &[u8]) -> &[u8] {
    let spaces = field.iter().take_while(|&&byte| byte == b' ').count();
    &field[spaces..]
}

fn without_trailing_spaces(field: &[u8]) -> &[u8] {
    let spaces = field.iter().rev().take_while(|&&byte| byte == b' ').count();
    &field[..field.len() - spaces]
}

pub fn is_blank(field: &[u8]) -> bool {
    field.iter().all(|&byte| byte == b' ')
}

/// A session as in L: spaces, then letters or digits, perhaps none of them.
pub fn is_session_or_blank(field: &[u8]) -> bool {
    without_leading_spaces(field)
        .iter()
        .all(u8::is_ascii_alphanumeric)
}

/// A session as in A: not all spaces.
pub fn is_session(field: &[u8]) -> bool {
    is_session_or_blank(field) && !is_blank(field)
}

/// A number: spaces, then one or more decimal digits, at most 2^64 - 1.
pub fn number(field: &[u8]) -> Option<u64> {
    let digits = without_leading_spaces(field);
    if digits.is_empty() || !digits.iter().all(u8::is_ascii_digit) {
        return None;
    }
    // Twenty digits fit 128 bits with room to spare.
    let value = digits
        .iter()
        .fold(0u128, |sum, digit| sum * 10 + u128::from(digit - b'0'));
    u64::try_from(value).ok()
}

/// A number as it is written: right-justified, without leading zeros.
pub fn write_number(number: u64) -> Vec<u8> {
    format!("{number:>20}").into_bytes()
}

/// A sound field: at least one letter or digit at the left, only these, then only spaces.
pub fn is_sound(field: &[u8]) -> bool {
    let text = without_trailing_spaces(field);
    !text.is_empty() && text.iter().all(u8::is_ascii_alphanumeric)
}

pub fn name(field: &[u8]) -> Name {
    field.try_into().expect("ten bytes")
}
