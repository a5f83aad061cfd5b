//! What `ncw_open` must print, from what the Rust answers, and words of it that others share.
use crate::asking::{ask, Answer, Question};

/// The most bytes that `ncw_open` and `remaster` take.
pub const MOST: usize = 65_536;

pub fn of_input(input: &[u8]) -> String {
    if MOST < input.len() {
        return "too large\n".to_string();
    }
    match ask(&Question::Open(input.to_vec())) {
        Answer::Opened([channels, bits, rate, frames, _, _, _, groups, float]) => format!(
            "channels {channels}\nbits {bits}\nrate {rate}\nframes {frames}\ngroups {groups}\nformat {}\n",
            format_word(float)
        ),
        answer => refused(&answer) + "\n",
    }
}

pub fn refused(answer: &Answer) -> String {
    match answer {
        Answer::Refused(4, word) => format!("refused 4 {word}"),
        Answer::Refused(number, _) => format!("refused {number}"),
        _ => panic!("an answer to another question"),
    }
}

pub fn format_word(float: u64) -> &'static str {
    ["pcm", "float"][float as usize]
}
