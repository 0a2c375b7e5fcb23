//! The store's answer in ordinary Rust: every check of the rules, and one pass over all lengths.

/// What a store is lent.
#[derive(Clone, Copy)]
pub struct Store<'a> {
    pub session: &'a [u8; 10],
    pub first: u64,
    pub lengths: &'a [u16],
    pub joined: &'a [u8],
}

/// Adds lengths up: the two ways that are timed.
pub type Sum = fn(&[u16]) -> usize;

/// As one writes it.
pub fn plain(lengths: &[u16]) -> usize {
    lengths.iter().map(|&length| usize::from(length)).sum()
}

/// In parts whose sum 32 bits hold, as the library does.
pub fn in_parts(lengths: &[u16]) -> usize {
    let part = |part: &[u16]| part.iter().map(|&length| u32::from(length)).sum::<u32>() as usize;
    lengths.chunks(65_536).map(part).sum()
}

impl Store<'_> {
    /// Writes the packet that answers a request; its size, or the number of a refusal.
    pub fn answer(
        &self,
        size: usize,
        request: &[u8],
        out: &mut [u8],
        sum: Sum,
    ) -> Result<usize, u32> {
        if !(22..=65_507).contains(&size) || self.first == 0 {
            return Err(19);
        }
        if self.first.checked_add(self.lengths.len() as u64).is_none() {
            return Err(19);
        }
        let asked = read(request, self);
        let place = asked.map_or(0, |(place, _)| place);
        let (before, behind) = self.lengths.split_at(place);
        let from = sum(before);
        if from + sum(behind) != self.joined.len() {
            return Err(44);
        }
        let (_, count) = asked?;
        let wanted = &behind[..behind.len().min(count)];
        let (mut full, mut held) = (20, 0);
        for &length in wanted {
            let with = full + 2 + usize::from(length);
            if with > size {
                break;
            }
            full = with;
            held += 1;
        }
        if held == 0 {
            return Err(52);
        }
        let packet = out.get_mut(..full).ok_or(41u32)?;
        packet[..18].copy_from_slice(&request[..18]);
        packet[18..20].copy_from_slice(&(held as u16).to_be_bytes());
        let (mut at, mut data) = (20, from);
        for &length in &wanted[..held] {
            let size = usize::from(length);
            packet[at..at + 2].copy_from_slice(&length.to_be_bytes());
            packet[at + 2..at + 2 + size].copy_from_slice(&self.joined[data..data + size]);
            at += 2 + size;
            data += size;
        }
        Ok(full)
    }
}

/// The place of the first wanted message, and how many are wanted.
fn read(request: &[u8], store: &Store) -> Result<(usize, usize), u32> {
    let header: &[u8; 20] = request.try_into().map_err(|_| 47u32)?;
    let number = u64::from_be_bytes(header[10..18].try_into().expect("eight bytes"));
    let count = u16::from_be_bytes([header[18], header[19]]);
    if number == 0 {
        return Err(13);
    }
    if count == 0 || count == u16::MAX {
        return Err(48);
    }
    if header[..10] != store.session[..] {
        return Err(53);
    }
    match number.checked_sub(store.first) {
        Some(place) if place < store.lengths.len() as u64 => Ok((place as usize, count.into())),
        _ => Err(51),
    }
}
