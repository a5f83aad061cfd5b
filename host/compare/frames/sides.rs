//! What either side says of a range. The original decodes whole files alone.
use super::Call;
use crate::errors::refused;
use crate::input::Read;
use crate::reading::sides::{original, Said};
use std::cell::RefCell;
use std::io::Cursor;
use std::rc::Rc;

thread_local! {
    static LAST: RefCell<Option<(Vec<u8>, Rc<Said>)>> = const { RefCell::new(None) };
}

/// What the original says of the whole file. Ranges of one file mostly come one after another, so the last is kept.
pub fn whole(file: &[u8]) -> Rc<Said> {
    LAST.with_borrow_mut(|last| match last {
        Some((known, said)) if known == file => said.clone(),
        _ => {
            let said = Rc::new(original(file));
            *last = Some((file.to_vec(), said.clone()));
            said
        }
    })
}

/// Those of these frames, of samples that are all of a file.
pub fn cut<'a>(call: &Call, channels: u16, samples: &'a [i32]) -> &'a [i32] {
    &samples[call.first as usize * usize::from(channels)..call.end() as usize * usize::from(channels)]
}

pub fn drop_in(call: &Call) -> Read {
    let reader = ours::NcwReader::read(Cursor::new(&call.file)).map_err(refused)?;
    reader.read_frames(call.first, call.count).map_err(refused)
}

/// All of the file by the drop-in's pieces.
pub fn pieces(file: &[u8]) -> Read {
    let reader = ours::NcwReader::read(Cursor::new(file)).map_err(refused)?;
    let pieces: Result<Vec<_>, _> = reader.pieces().collect();
    pieces.map(|pieces| pieces.concat()).map_err(refused)
}
