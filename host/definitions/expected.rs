//! What is expected of a question: what the Rust original answers, and what it does not tell or has not taken up.
use crate::asking::{self, Answer, Question};
use crate::misfit::first_misfit;
use crate::widened;
use ncw::PcmSpec;

/// Of encoding where document 02 has widened it the reference's answer. 36 has its place where 4 has the bits word.
pub fn ask(question: &Question) -> Answer {
    match question {
        Question::Encode(spec, mode, samples) => match widened::encoding(*spec, *mode, samples) {
            Ok(file) => Answer::Bytes(file),
            Err(refused) => Answer::Refused(refused.number, 0),
        },
        Question::Reencode(spec, samples, template) => with_place(asking::ask(question), *spec, samples, template),
        _ => asking::ask(question),
    }
}

/// The place is the reference's, which has to find a misfit where the original refuses by 36, and none where it accepts.
fn with_place(answer: Answer, spec: PcmSpec, samples: &[i32], template: &[u8]) -> Answer {
    let found = || first_misfit(samples, spec.channels.into(), template);
    match answer {
        Answer::Refused(36, _) => Answer::Refused(36, found().expect("a misfit, since 36 is told").place as i16),
        Answer::Bytes(_) => {
            assert_eq!(found(), None, "a misfit in what the original accepts");
            answer
        }
        _ => answer,
    }
}
