//! Inputs that fail, or are not at their start.
use crate::cases::one_sample;
use ncw::{NcwError, NcwReader};
use std::io::{Cursor, Error, ErrorKind, Read, Result, Seek, SeekFrom};

/// A file whose input fails at seeking, or at its end.
struct Broken {
    good: Cursor<Vec<u8>>,
    at_seeking: bool,
}

fn failure() -> Error {
    Error::from(ErrorKind::TimedOut)
}

impl Read for Broken {
    fn read(&mut self, out: &mut [u8]) -> Result<usize> {
        match self.good.read(out)? {
            0 if !self.at_seeking => Err(failure()),
            n => Ok(n),
        }
    }
}

impl Seek for Broken {
    fn seek(&mut self, to: SeekFrom) -> Result<u64> {
        if self.at_seeking {
            return Err(failure());
        }
        self.good.seek(to)
    }
}

#[test]
fn a_failure_of_the_input_is_no_refusal() {
    for at_seeking in [true, false] {
        let error = NcwReader::read(Broken { good: Cursor::new(one_sample()), at_seeking }).unwrap_err();
        assert!(matches!(&error, NcwError::Io(inner) if inner.kind() == ErrorKind::TimedOut));
        assert_eq!(error.number(), None);
    }
}

#[test]
fn a_file_is_opened_from_its_start() {
    let mut input = Cursor::new(one_sample());
    input.set_position(200);
    assert_eq!(NcwReader::read(&mut input).unwrap().decode_samples().unwrap(), [5]);
}

#[test]
fn what_is_printed_leaves_the_bytes_out() {
    let printed = format!("{:?}", NcwReader::read(Cursor::new(one_sample())).unwrap());
    assert!(printed.contains("sample_rate: 44100"));
    assert!(printed.len() < 300, "{printed}");
}
