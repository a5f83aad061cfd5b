//! Files with less in them.
use crate::parts::File;

pub type Edit = Box<dyn Fn(&mut File)>;

/// Every one makes less of the file.
pub fn edits(file: &File) -> Vec<Edit> {
    let mut edits: Vec<Edit> = Vec::new();
    if !file.gap.is_empty() || !file.tail.is_empty() {
        edits.push(Box::new(|file| (file.gap, file.tail) = (Vec::new(), Vec::new())));
    }
    if file.groups.iter().flatten().any(|block| block.flags != 0) {
        edits.extend([flags_within(0), flags_within(2)]);
    }
    let frames = [0, 1, file.frames / 2, file.frames.saturating_sub(1)].into_iter().filter(|n| *n < file.frames);
    edits.extend(frames.map(fewer_frames));
    let channels = [1, 2, file.channels / 2, file.channels - 1].into_iter().filter(|n| 0 < *n && *n < file.channels);
    edits.extend(channels.flat_map(|n| [fewer_channels(n, true), fewer_channels(n, false)]));
    let blocks = file.groups.iter().enumerate().flat_map(|(g, group)| (0..group.len()).map(move |c| (g, c)));
    edits.extend(blocks.clone().flat_map(|(g, c)| narrower(g, c, file.groups[g][c].bits)));
    edits.extend(blocks.filter(|(g, c)| file.groups[*g][*c].run.len() > 64).map(|(g, c)| fewer_values(g, c)));
    edits
}

fn flags_within(mask: u16) -> Edit {
    Box::new(move |file| file.groups.iter_mut().flatten().for_each(|block| block.flags &= mask))
}

fn fewer_frames(frames: u32) -> Edit {
    Box::new(move |file| {
        file.frames = frames;
        file.groups.truncate(frames.div_ceil(512) as usize);
    })
}

fn fewer_channels(channels: u16, first: bool) -> Edit {
    Box::new(move |file| {
        let (n, less) = (usize::from(channels), usize::from(file.channels - channels));
        file.channels = channels;
        file.groups.iter_mut().for_each(|blocks| drop(blocks.drain(if first { 0..less } else { n..n + less })));
    })
}

/// A block's bits word nearer to 1 or to -1, with the front of its values.
fn narrower(group: usize, channel: usize, bits: i16) -> Vec<Edit> {
    let widths = [1, bits.abs() / 2, bits.abs() - 1].into_iter().filter(|width| 0 < *width && *width < bits.abs());
    let edit = |width: i16| -> Edit {
        Box::new(move |file| {
            let block = &mut file.groups[group][channel];
            block.bits = width * bits.signum();
            block.run.truncate(64 * width as usize);
        })
    };
    widths.map(edit).collect()
}

/// As few bytes as opening accepts, whatever the bits word says.
fn fewer_values(group: usize, channel: usize) -> Edit {
    Box::new(move |file| file.groups[group][channel].run.truncate(64))
}
