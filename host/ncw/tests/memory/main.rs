//! Reading a file by pieces takes memory for one piece.
use ncw::{encode_pcm, NcwReader, PcmSpec, StereoMode, SAMPLES_AT_ONCE};
use std::alloc::{GlobalAlloc, Layout, System};
use std::io::Cursor;
use std::sync::atomic::{AtomicUsize, Ordering::SeqCst};

/// The memory that is taken now, and the most that was.
struct Counting {
    now: AtomicUsize,
    most: AtomicUsize,
}

#[global_allocator]
static MEMORY: Counting = Counting { now: AtomicUsize::new(0), most: AtomicUsize::new(0) };

// SAFETY: the system's, with a count.
unsafe impl GlobalAlloc for Counting {
    unsafe fn alloc(&self, layout: Layout) -> *mut u8 {
        let now = self.now.fetch_add(layout.size(), SeqCst) + layout.size();
        self.most.fetch_max(now, SeqCst);
        System.alloc(layout)
    }

    unsafe fn dealloc(&self, place: *mut u8, layout: Layout) {
        self.now.fetch_sub(layout.size(), SeqCst);
        System.dealloc(place, layout);
    }
}

/// The most memory that the work takes at a time.
fn most_taken(work: impl FnOnce()) -> usize {
    let before = MEMORY.now.load(SeqCst);
    MEMORY.most.store(before, SeqCst);
    work();
    MEMORY.most.load(SeqCst) - before
}

/// The one test of its program, since all threads are counted.
#[test]
fn one_piece_at_a_time() {
    let spec = PcmSpec { channels: 2, bits_per_sample: 16, sample_rate: 44_100 };
    let samples: Vec<i32> = (0..5_000_000).map(|k: i32| k.wrapping_mul(7_919) >> 20).collect();
    let file = encode_pcm(&samples, spec, StereoMode::Auto).unwrap();
    let mut reader = NcwReader::read(Cursor::new(file)).unwrap();
    let (piece, slack) = (4 * SAMPLES_AT_ONCE, 100_000);
    let mut count = 0;
    let taken = most_taken(|| reader.pieces().for_each(|piece| count += piece.unwrap().len()));
    assert_eq!(count, samples.len());
    assert!((piece..piece + slack).contains(&taken), "{taken} bytes for pieces of {piece}");
    assert!(most_taken(|| drop(reader.decode_samples())) >= 4 * samples.len());
    assert!(most_taken(|| drop(reader.read_frames(90_000, 400))) < slack, "a few frames");
    assert!(most_taken(|| drop(reader.read_frames(0, u32::MAX))) < slack, "frames that are not there");
}
