//! What the host boundary's calls are lent. Every byte that is lent or lies beside it is held to what it has to be.
use crate::input::{differ, Difference, Tally};
use std::hint::black_box;

/// A refusal is this plus its number.
pub const REFUSED: u64 = 1 << 63;

/// So many bytes, and up to seven more, lie before and after what is lent.
const EDGE: usize = 16;

/// Where an input is refused, at most so much room is lent.
pub const MOST_REFUSED: usize = 1 << 20;

/// What a call has to write, or the number by which it has to refuse.
pub type Written = Result<Vec<u8>, u32>;

/// Bytes that are lent, between bytes that are not.
pub struct Lent {
    bytes: Vec<u8>,
    from: usize,
    to: usize,
}

impl Lent {
    /// `mark` moves the place, so that it is not always aligned, and the bytes around it.
    fn new(length: usize, mark: usize) -> Self {
        let from = EDGE + mark % 8;
        let to = from + length;
        Lent { bytes: noise(to + EDGE, mark), from, to }
    }

    pub fn of(input: &[u8], mark: usize) -> Self {
        let mut lent = Lent::new(input.len(), mark);
        lent.bytes[lent.from..lent.to].copy_from_slice(input);
        lent
    }

    /// Nothing has no place: its pointer dangles.
    pub fn part(&self) -> &[u8] {
        match self.from < self.to {
            true => &self.bytes[self.from..self.to],
            false => &[],
        }
    }

    fn part_mut(&mut self) -> &mut [u8] {
        match self.from < self.to {
            true => &mut self.bytes[self.from..self.to],
            false => &mut [],
        }
    }

    /// Whether they are still those of `input`, and the bytes around them too.
    pub fn check_kept(&self, what: &str, input: &[u8], mark: usize) -> Result<(), Difference> {
        match black_box(self).part() == input && black_box(self).bytes == Lent::of(input, mark).bytes {
            true => Ok(()),
            false => differ(what, "kept", "changed"),
        }
    }
}

/// Bytes without a rule that a call would follow: none is like its neighbour, and few are zero.
fn noise(length: usize, mark: usize) -> Vec<u8> {
    static POOL: [u8; 4096] = pool();
    let mut bytes = Vec::with_capacity(length);
    let mut from = mark % POOL.len();
    while bytes.len() < length {
        let to = POOL.len().min(from + length - bytes.len());
        bytes.extend_from_slice(&POOL[from..to]);
        from = 0;
    }
    bytes
}

const fn pool() -> [u8; 4096] {
    let mut bytes = [0; 4096];
    let (mut k, mut state) = (0, 0x9E37_79B9_u32);
    while k < bytes.len() {
        state = state.wrapping_mul(1_664_525).wrapping_add(1_013_904_223);
        bytes[k] = (state >> 24) as u8 | 1 << (k % 8);
        k += 1;
    }
    bytes
}

/// Samples as the boundary has them, 4 bytes each.
pub fn as_bytes(samples: &[i32]) -> Vec<u8> {
    let mut bytes = vec![0; 4 * samples.len()];
    let each = bytes.chunks_exact_mut(4).zip(samples);
    each.for_each(|(four, sample)| four.copy_from_slice(&sample.to_le_bytes()));
    bytes
}

/// A number of the input's own, so that an input by itself is asked with the same rooms.
pub fn mark(input: &[u8]) -> usize {
    input.iter().take(300).fold(input.len(), |sum, byte| sum.wrapping_mul(31).wrapping_add(usize::from(*byte))) >> 3
}

/// Exactly enough, more by up to 7 bytes and by more than that, one byte too few, none.
pub fn rooms(length: usize, mark: usize) -> Vec<usize> {
    let enough = [0, 1 + mark % 7, 8 + mark % 90].map(|more| length + more);
    let few = if length > 0 { vec![length - 1, 0] } else { Vec::new() };
    enough.into_iter().chain(few).collect()
}

/// Where a call is refused: none, little, and enough for whatever it could have written.
pub fn rooms_refused(enough: usize, mark: usize) -> Vec<usize> {
    vec![0, 8 + mark % 90, enough.min(MOST_REFUSED) + mark % 7]
}

/// A call with so much room, held to what it has to write.
pub fn check_room<A>(
    name: &str,
    call: impl FnOnce(&mut [u8]) -> u64,
    room: usize,
    mark: usize,
    written: &Written,
    tally: &mut Tally<A>,
) -> Result<(), Difference> {
    let (answer, bytes) = expected(written, room);
    let mut wanted = Lent::new(room, mark);
    let mut lent = Lent::new(room, mark);
    wanted.part_mut()[..bytes.len()].copy_from_slice(bytes);
    let got = call(lent.part_mut());
    tally.calls += 1;
    tally.fifties += u64::from(answer == REFUSED + 50);
    if got != answer {
        return differ(&format!("{name} with room {room}"), &words(answer), &words(got));
    }
    if lent.bytes == wanted.bytes {
        return Ok(());
    }
    let at = lent.bytes.iter().zip(&wanted.bytes).position(|(got, wanted)| got != wanted).unwrap_or(0);
    let place = at as i64 - lent.from as i64;
    let what = format!("{name} with room {room}, answer {}: byte {place} of the room", words(got));
    differ(&what, &format!("{:02X}", wanted.bytes[at]), &format!("{:02X}", lent.bytes[at]))
}

/// The answer, and what is written at the front of the room.
fn expected(written: &Written, room: usize) -> (u64, &[u8]) {
    match written {
        Err(number) => (REFUSED + u64::from(*number), &[]),
        Ok(bytes) if room < bytes.len() => (REFUSED + 50, &[]),
        Ok(bytes) => (bytes.len() as u64, bytes),
    }
}

pub fn words(answer: u64) -> String {
    match answer.checked_sub(REFUSED) {
        Some(number) => format!("refused {number}"),
        None => format!("{answer} bytes"),
    }
}
