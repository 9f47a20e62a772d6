//! Sample files of S900 and S1000: words unpacked and packed.
//!
//! S900 words have 12 bits, -2,048 to 2,047; S1000 words have 16.

use crate::{Kind, Refusal, lend};
use std::fmt;

/// Whose sample a file is. An S3000's, with a header of 192 bytes, is none of these.
#[derive(Clone, Copy, Debug, PartialEq, Eq, Hash)]
pub enum SampleKind {
    /// S900 and S950.
    S900,
    /// S1000.
    S1000,
}

impl SampleKind {
    /// The kind of disk that is its sampler's own, whose names are those in its header.
    pub fn disk(self) -> Kind {
        match self {
            SampleKind::S900 => Kind::S900,
            SampleKind::S1000 => Kind::S1000,
        }
    }
}

impl fmt::Display for SampleKind {
    fn fmt(&self, to: &mut fmt::Formatter<'_>) -> fmt::Result {
        self.disk().fmt(to)
    }
}

/// Whose sample a file would be: an S1000 header begins with 3, and no S900 name with that byte.
pub fn kind_of(file: &[u8]) -> SampleKind {
    if file.first() == Some(&3) { SampleKind::S1000 } else { SampleKind::S900 }
}

/// Bytes of a sample's header.
pub fn header_length(kind: SampleKind) -> usize {
    match kind {
        SampleKind::S900 => 60,
        SampleKind::S1000 => 150,
    }
}

/// Unpacks a sample file's words to the front of `words` and gives their number: 18, 21.
pub fn unpack(kind: SampleKind, file: &[u8], words: &mut [i16]) -> Result<usize, Refusal> {
    let told = match kind {
        SampleKind::S900 => lend::s900_unpack(file, words),
        SampleKind::S1000 => lend::s1000_unpack(file, words),
    };
    Refusal::or(told.refusal, told.place, told.count)
}

/// Packs a header and words to the output's front and gives the file's length: 18, 19, 21.
pub fn pack(kind: SampleKind, header: &[u8], words: &[i16], output: &mut [u8]) -> Result<usize, Refusal> {
    let told = match kind {
        SampleKind::S900 => lend::s900_pack(header, words, output),
        SampleKind::S1000 => lend::s1000_pack(header, words, output),
    };
    Refusal::or(told.refusal, told.place, told.count)
}

/// A sample file's words: 18.
pub fn words_of(kind: SampleKind, file: &[u8]) -> Result<Vec<i16>, Refusal> {
    let mut words = vec![0; file.len()]; // a word takes more than a byte
    let count = unpack(kind, file, &mut words)?;
    words.truncate(count);
    Ok(words)
}

/// The sample file of a header and words: 18, 19.
pub fn file_of(kind: SampleKind, header: &[u8], words: &[i16]) -> Result<Vec<u8>, Refusal> {
    let mut file = vec![0; header.len() + 2 * words.len()]; // a word takes two bytes at most
    let length = pack(kind, header, words, &mut file)?;
    file.truncate(length);
    Ok(file)
}

#[cfg(test)]
mod tests {
    use super::*;

    fn header_900(words: u8) -> Vec<u8> {
        let mut header = vec![0; 60];
        header[..10].fill(b' ');
        header[16] = words;
        header[26] = b'O';
        header
    }

    #[test]
    fn worked_words_there_and_back() {
        for (words, data) in [([291, -1], [63, 18, 255]), ([-2048, 2047], [15, 128, 127])] {
            let file = file_of(SampleKind::S900, &header_900(2), &words).expect("legal");
            assert_eq!(file[60..], data);
            assert_eq!(kind_of(&file), SampleKind::S900);
            assert_eq!(words_of(SampleKind::S900, &file), Ok(words.to_vec()));
        }
    }

    #[test]
    fn faults_are_refused() {
        let told =
            |answer: Result<Vec<u8>, Refusal>| answer.map_err(|refusal| (refusal.number(), refusal.place()));
        assert_eq!(told(file_of(SampleKind::S900, &header_900(2), &[0, 2048])), Err((19, 1)));
        assert_eq!(told(file_of(SampleKind::S900, &header_900(4), &[0, 0])), Err((18, 16)));
        assert_eq!(told(file_of(SampleKind::S1000, &header_900(2), &[0, 0])), Err((18, 0)));
        let mut output = [0; 62];
        let refused =
            pack(SampleKind::S900, &header_900(2), &[0, 0], &mut output).map_err(|refusal| refusal.number());
        assert_eq!(refused, Err(21));
    }
}
