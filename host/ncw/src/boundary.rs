//! The eleven calls of the archive as they are. Eight answer a length in bytes, or [`REFUSED`] plus the number of a refusal. The three
//! others write nothing: one answers yes or no, or a refusal in the same way, and two where a refusal is.
//!
//! All that is `unsafe` in this crate is here.
#![allow(unsafe_code)]

use std::slice;

const _: () = assert!(
    cfg!(all(target_endian = "little", target_pointer_width = "64")),
    "the archive is for a 64-bit host whose numbers have the lowest byte first"
);

/// What is added to the number of a refusal. No length reaches it.
pub const REFUSED: u64 = 1 << 63;

extern "C" {
    fn ncw_open(file: *const u8, file_len: usize) -> u64;
    fn ncw_decode(file: *const u8, file_len: usize, samples: *mut u8, samples_len: usize) -> u64;
    fn ncw_read_frames(
        file: *const u8,
        file_len: usize,
        first: u32,
        count: u32,
        samples: *mut u8,
        samples_len: usize,
    ) -> u64;
    fn ncw_peaks(file: *const u8, file_len: usize, summary: *mut u8, summary_len: usize) -> u64;
    fn ncw_peak(
        summary: *const u8,
        summary_len: usize,
        group: u32,
        channel: u32,
        pair: *mut u8,
        pair_len: usize,
    ) -> u64;
    fn ncw_peaks_all(summary: *const u8, summary_len: usize, pairs: *mut u8, pairs_len: usize) -> u64;
    fn ncw_peaks_check(summary: *const u8, summary_len: usize, file: *const u8, file_len: usize) -> u64;
    fn ncw_encode(
        samples: *const u8,
        samples_len: usize,
        channels: u16,
        depth: u16,
        rate: u32,
        mode: u32,
        file: *mut u8,
        file_len: usize,
    ) -> u64;
    fn ncw_reencode(
        samples: *const u8,
        samples_len: usize,
        channels: u16,
        depth: u16,
        rate: u32,
        template: *const u8,
        template_len: usize,
        file: *mut u8,
        file_len: usize,
    ) -> u64;
    fn ncw_decode_refusal(file: *const u8, file_len: usize, room: u64) -> u64;
    fn ncw_reencode_refusal(
        samples: *const u8,
        samples_len: usize,
        channels: u16,
        depth: u16,
        rate: u32,
        template: *const u8,
        template_len: usize,
        room: u64,
    ) -> u64;
}

/// Opens a file: how many bytes decoding it would write, if it does not refuse.
pub fn open(file: &[u8]) -> u64 {
    // SAFETY: the call reads the bytes of `file` and no others, and keeps nothing of them.
    unsafe { ncw_open(file.as_ptr(), file.len()) }
}

/// Decodes a file: how many bytes of `samples` were written, from the first on, 4 to a sample with the lowest first. Where
/// it refuses none is changed, and what lies after the written ones stays.
pub fn decode(file: &[u8], samples: &mut [u8]) -> u64 {
    // SAFETY: the call reads the bytes of `file`, writes bytes of `samples`, touches no others, and keeps nothing of them.
    // The borrows keep the two apart.
    unsafe { ncw_decode(file.as_ptr(), file.len(), samples.as_mut_ptr(), samples.len()) }
}

/// Reads `count` frames of a file, from the frame `first` on: how many bytes of `samples` were written, from the first on, as by
/// [`decode`]. Groups of the file that have none of these frames are not looked at, but for the first block's signature and flags.
/// Where it refuses none is changed, and what lies after the written ones stays.
pub fn read_frames(file: &[u8], first: u32, count: u32, samples: &mut [u8]) -> u64 {
    let room = samples.as_mut_ptr();
    // SAFETY: the call reads the bytes of `file`, writes bytes of `samples`, touches no others, and keeps nothing of them.
    // The borrows keep the two apart.
    unsafe { ncw_read_frames(file.as_ptr(), file.len(), first, count, room, samples.len()) }
}

/// Builds the summary of a file's peaks: how many bytes of `summary` were written, from the first on. Where it refuses none is
/// changed, and what lies after the written ones stays.
pub fn peaks(file: &[u8], summary: &mut [u8]) -> u64 {
    // SAFETY: the call reads the bytes of `file`, writes bytes of `summary`, touches no others, and keeps nothing of them.
    // The borrows keep the two apart.
    unsafe { ncw_peaks(file.as_ptr(), file.len(), summary.as_mut_ptr(), summary.len()) }
}

/// Reads the pair of a group and a channel of a summary: 8, which is how many bytes of `pair` were written, the smallest and then
/// the largest sample, 4 to a sample with the lowest first. Where it refuses none is changed, and what lies after them stays.
pub fn peak(summary: &[u8], group: u32, channel: u32, pair: &mut [u8]) -> u64 {
    let room = pair.as_mut_ptr();
    // SAFETY: the call reads the bytes of `summary`, writes bytes of `pair`, touches no others, and keeps nothing of them.
    // The borrows keep the two apart.
    unsafe { ncw_peak(summary.as_ptr(), summary.len(), group, channel, room, pair.len()) }
}

/// Reads all pairs of a summary, groups in order and channels within: how many bytes of `pairs` were written, as by [`peak`].
pub fn peaks_all(summary: &[u8], pairs: &mut [u8]) -> u64 {
    // SAFETY: the call reads the bytes of `summary`, writes bytes of `pairs`, touches no others, and keeps nothing of them.
    // The borrows keep the two apart.
    unsafe { ncw_peaks_all(summary.as_ptr(), summary.len(), pairs.as_mut_ptr(), pairs.len()) }
}

/// Whether the bytes are the summary of a file's peaks: 1 for yes, 0 for no.
pub fn peaks_check(summary: &[u8], file: &[u8]) -> u64 {
    // SAFETY: the call reads the bytes of `summary` and `file` and no others, and keeps nothing of them.
    unsafe { ncw_peaks_check(summary.as_ptr(), summary.len(), file.as_ptr(), file.len()) }
}

/// Encodes samples, 4 bytes each with the lowest first: how many bytes of `file` were written, from the first on. `mode` is 0 for
/// Auto, 1 for Direct, 2 for MidSide. Where it refuses none is changed, and what lies after the written ones stays.
pub fn encode(samples: &[u8], channels: u16, depth: u16, rate: u32, mode: u32, file: &mut [u8]) -> u64 {
    let (from, room) = (samples.as_ptr(), file.as_mut_ptr());
    // SAFETY: the call reads the bytes of `samples`, writes bytes of `file`, touches no others, and keeps nothing of them.
    // The borrows keep the two apart.
    unsafe { ncw_encode(from, samples.len(), channels, depth, rate, mode, room, file.len()) }
}

/// Re-encodes samples, 4 bytes each with the lowest first, as the file `template` is encoded: how many bytes of `file` were written,
/// from the first on, which is the template's length. Where it refuses none is changed, and what lies after the written ones stays.
pub fn reencode(samples: &[u8], channels: u16, depth: u16, rate: u32, template: &[u8], file: &mut [u8]) -> u64 {
    let (from, like, room) = (samples.as_ptr(), template.as_ptr(), file.as_mut_ptr());
    // SAFETY: the call reads the bytes of `samples` and `template`, writes bytes of `file`, touches no others, and keeps nothing
    // of them. The borrows keep what is written apart from what is read.
    unsafe { ncw_reencode(from, samples.len(), channels, depth, rate, like, template.len(), room, file.len()) }
}

/// What [`decode`] refuses with room for so many bytes: 0 where it does not, otherwise the number of the refusal, without [`REFUSED`],
/// plus 2^8 times the place (always 0 here), 2^24 times the channel and 2^40 times the group.
pub fn decode_refusal(file: &[u8], room: u64) -> u64 {
    // SAFETY: the call reads the bytes of `file` and no others, and keeps nothing of them.
    unsafe { ncw_decode_refusal(file.as_ptr(), file.len(), room) }
}

/// What [`reencode`] refuses with room for so many bytes, as [`decode_refusal`] answers; the place is that of 36, and 0 otherwise.
pub fn reencode_refusal(samples: &[u8], channels: u16, depth: u16, rate: u32, template: &[u8], room: u64) -> u64 {
    let (from, like) = (samples.as_ptr(), template.as_ptr());
    // SAFETY: the call reads the bytes of `samples` and `template` and no others, and keeps nothing of them.
    unsafe { ncw_reencode_refusal(from, samples.len(), channels, depth, rate, like, template.len(), room) }
}

/// The same samples as bytes.
pub(crate) fn as_bytes(samples: &[i32]) -> &[u8] {
    // SAFETY: the bytes are just those of `samples`, borrowed as long. A byte has no alignment, and every byte is a `u8`.
    unsafe { slice::from_raw_parts(samples.as_ptr().cast(), size_of_val(samples)) }
}

/// The same room as bytes.
pub(crate) fn as_bytes_mut(samples: &mut [i32]) -> &mut [u8] {
    // SAFETY: the bytes are just those of `samples`, borrowed as long. A byte has no alignment, every byte is a `u8`, and any
    // four bytes are an `i32`.
    unsafe { slice::from_raw_parts_mut(samples.as_mut_ptr().cast(), size_of_val(samples)) }
}
