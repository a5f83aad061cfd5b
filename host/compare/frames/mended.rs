//! Files of which only the touched groups count.
use crate::faults::put;
use crate::lent::as_bytes;
use std::ops::Range;

/// The groups that have one of these frames.
pub fn touched(first: u32, count: u32) -> Range<u32> {
    let end = u64::from(first) + u64::from(count);
    match count {
        0 => 0..0,
        _ => first / 512..end.div_ceil(512) as u32,
    }
}

/// A file that opens with a quiet group in place of each that is not touched: the original's whole decode of it stands or falls by the touched ones.
pub fn mended(file: &[u8], touched: Range<u32>) -> Vec<u8> {
    let number = |at: usize| u32::from_le_bytes([file[at], file[at + 1], file[at + 2], file[at + 3]]);
    let [frames, table, data] = [16, 20, 24].map(number);
    let entry = |k: u32| (data + number((table + 4 * k) as usize)) as usize;
    let quiet = quiet(number(8) as u16, file.get(data as usize + 10).map_or(0, |flags| flags & 2));
    let group = |k: u32| if touched.contains(&k) { &file[entry(k)..entry(k + 1)] } else { &quiet[..] };
    let mut out = file[..table as usize].to_vec();
    let ends = (0..frames.div_ceil(512)).scan(0, |end, k| {
        *end += group(k).len() as i32;
        Some(*end)
    });
    let entries: Vec<i32> = [0].into_iter().chain(ends).collect();
    out.extend(as_bytes(&entries));
    (0..frames.div_ceil(512)).for_each(|k| out.extend(group(k)));
    put(&mut out, 28, 4, entries[entries.len() - 1] as u64);
    out
}

/// Blocks of width 1 with nothing but zeros.
fn quiet(channels: u16, float: u8) -> Vec<u8> {
    let mut block = vec![0x16, 0x0C, 0x9A, 0x3E, 0, 0, 0, 0, 1, 0, float];
    block.resize(80, 0);
    block.repeat(channels.into())
}
