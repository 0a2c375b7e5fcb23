//! What the typed modules share: lending words and outputs to a call, and taking its answer.

use crate::Refusal;

/// Takes the number that a call returned which is the caller's alone.
pub(crate) fn check(number: u32) -> Result<(), Refusal> {
    answered(number, Refusal::given)
}

/// 0, or the number of a refusal.
fn answered(number: u32, refusal: fn(u32) -> Refusal) -> Result<(), Refusal> {
    match number {
        0 => Ok(()),
        refused => Err(refusal(refused)),
    }
}

/// Lends a call `N` words that is the caller's alone, and takes what it answers in them.
pub(crate) fn words<const N: usize>(
    call: impl FnOnce(&mut [u64]) -> u32,
) -> Result<[u64; N], Refusal> {
    let mut words = [0; N];
    check(call(&mut words))?;
    Ok(words)
}

/// Lends `N` words to a call that judges what came from the peer, and takes what it answers in
/// them.
pub(crate) fn received<const N: usize>(
    call: impl FnOnce(&mut [u64]) -> u32,
) -> Result<[u64; N], Refusal> {
    let mut words = [0; N];
    answered(call(&mut words), Refusal::received)?;
    Ok(words)
}

/// Lends a writer an output, and takes the part of it that was written.
pub(crate) fn written(
    out: &mut [u8],
    call: impl FnOnce(&mut [u8], &mut [u64]) -> u32,
) -> Result<&[u8], Refusal> {
    let [size] = words(|words| call(out, words))?;
    Ok(&out[..size as usize])
}

/// Lends an output to a writer that judges what came from the peer, and takes the part of it that
/// was written.
pub(crate) fn written_for(
    out: &mut [u8],
    call: impl FnOnce(&mut [u8], &mut [u64]) -> u32,
) -> Result<&[u8], Refusal> {
    let [size] = received(|words| call(out, words))?;
    Ok(&out[..size as usize])
}

/// Takes the answer of a call that refuses nothing but a buffer that is too short, as none is here.
pub(crate) fn sure<T>(answer: Result<T, Refusal>) -> T {
    answer.expect("each buffer has the size that the header names")
}

/// A count: the library answers none that needs more than 16 bits.
pub(crate) fn count(word: u64) -> u16 {
    u16::try_from(word).unwrap_or_else(|_| unknown(word))
}

/// The bytes of a lent slice that an answer points out.
pub(crate) fn pointed(bytes: &[u8], offset: u64, length: u64) -> &[u8] {
    &bytes[offset as usize..][..length as usize]
}

/// The `N` bytes at a fixed place, of a slice that has them.
pub(crate) fn field<const N: usize>(bytes: &[u8], at: usize) -> [u8; N] {
    bytes[at..at + N].try_into().expect("a slice of N bytes")
}

/// The number of 64 bits at a place of a state, where numbers are little-endian.
pub(crate) fn number(state: &[u8], at: usize) -> u64 {
    u64::from_le_bytes(field(state, at))
}

/// The number of 16 bits at a place of a state.
pub(crate) fn small_number(state: &[u8], at: usize) -> u16 {
    u16::from_le_bytes(field(state, at))
}

/// Ends the program where the archive isn't the one that the header describes.
pub(crate) fn unknown(word: u64) -> ! {
    panic!("libeiderwagon.a answers {word}, which this crate doesn't know: build both anew")
}
