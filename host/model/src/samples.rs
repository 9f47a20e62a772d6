//! S900 and S1000 sample files (document 01, "The files"). No paper asks for S3000 ones, and nothing here is called with that
//! kind; it would be taken for an S1000.

use crate::layout::Kind;
use crate::names::{character_of, is_printable};
use crate::{Answer, number, refuse};

/// Bytes of a sample's header.
pub fn header_bytes(kind: Kind) -> usize {
    match kind {
        Kind::S900 => 60,
        Kind::S1000 | Kind::S3000 => 150,
    }
}

/// Where a header holds N, the number of words (four bytes).
pub fn count_at(kind: Kind) -> usize {
    match kind {
        Kind::S900 => 16,
        Kind::S1000 | Kind::S3000 => 26,
    }
}

/// Bytes of a sample file of so many words.
pub fn file_bytes(kind: Kind, words: usize) -> usize {
    match kind {
        Kind::S900 => 60 + words + words / 2,
        Kind::S1000 | Kind::S3000 => 150 + 2 * words,
    }
}

/// Unpacks a sample file's words and gives their number: 18, 21.
pub fn unpack(kind: Kind, file: &[u8], words: &mut [i16]) -> Answer<usize> {
    if file.len() < header_bytes(kind) {
        return refuse(18, 0);
    }
    let (header, data) = file.split_at(header_bytes(kind));
    let count = words_said(kind, header);
    if file.len() != file_bytes(kind, count) || odd(kind, count) {
        return refuse(18, count_at(kind));
    }
    judge_header(kind, header)?;
    if words.len() < count {
        return refuse(21, 0);
    }
    for (at, word) in words[..count].iter_mut().enumerate() {
        *word = match kind {
            Kind::S900 => word_900(data, count, at),
            Kind::S1000 | Kind::S3000 => i16::from_le_bytes([data[2 * at], data[2 * at + 1]]),
        };
    }
    Ok(count)
}

/// Packs a header and words to a sample file and gives its length: 18, 19, 21.
pub fn pack(kind: Kind, header: &[u8], words: &[i16], output: &mut [u8]) -> Answer<usize> {
    if header.len() != header_bytes(kind) {
        return refuse(18, 0);
    }
    if words_said(kind, header) != words.len() || odd(kind, words.len()) {
        return refuse(18, count_at(kind));
    }
    judge_header(kind, header)?;
    if kind == Kind::S900
        && let Some(at) = words.iter().position(|word| !(-2048..=2047).contains(word))
    {
        return refuse(19, at);
    }
    let mut file = header.to_vec();
    match kind {
        Kind::S900 => file.extend(data_900(words)),
        Kind::S1000 | Kind::S3000 => file.extend(words.iter().flat_map(|word| word.to_le_bytes())),
    }
    if output.len() < file.len() {
        return refuse(21, 0);
    }
    output[..file.len()].copy_from_slice(&file);
    Ok(file.len())
}

fn words_said(kind: Kind, header: &[u8]) -> usize {
    number(&header[count_at(kind)..][..4])
}

fn odd(kind: Kind, count: usize) -> bool {
    kind == Kind::S900 && count % 2 == 1
}

/// Word `at` of `count` packed S900 words: its low four bits stand in a byte shared by both halves.
fn word_900(data: &[u8], count: usize, at: usize) -> i16 {
    let half = count / 2;
    let (low, high) = if at < half {
        (data[2 * at] >> 4, data[2 * at + 1])
    } else {
        (data[2 * (at - half)] & 15, data[count + at - half])
    };
    i16::from(high as i8) * 16 + i16::from(low)
}

/// S900 words packed: shared low bits and the first half's upper bytes in turn, then the second half's upper bytes.
fn data_900(words: &[i16]) -> Vec<u8> {
    let (first, second) = words.split_at(words.len() / 2);
    let low = |word: i16| word.rem_euclid(16) as u8;
    let upper = |word: i16| word.div_euclid(16) as i8 as u8;
    let mut data = Vec::new();
    for (&one, &other) in first.iter().zip(second) {
        data.push(16 * low(one) + low(other));
        data.push(upper(one));
    }
    data.extend(second.iter().map(|&word| upper(word)));
    data
}

/// A rule of a header: the offset where it stands, and whether it is met.
type Ruled = (usize, bool);

/// 18 at the lowest offset whose rule fails.
fn judge_header(kind: Kind, header: &[u8]) -> Answer<()> {
    let rules = match kind {
        Kind::S900 => rules_900(header),
        Kind::S1000 | Kind::S3000 => rules_1000(header),
    };
    match rules.iter().filter(|(_, met)| !met).map(|&(at, _)| at).min() {
        Some(at) => refuse(18, at),
        None => Ok(()),
    }
}

fn rules_900(header: &[u8]) -> Vec<Ruled> {
    let four = |at: usize| number(&header[at..at + 4]);
    let (count, end, start, loop_length) = (four(16), four(28), four(32), four(36));
    let mut rules: Vec<Ruled> = Vec::new();
    rules.extend((0..10).map(|at| (at, is_printable(header[at]))));
    rules.extend((10..16).map(|at| (at, header[at] == 0)));
    rules.extend([24, 25, 27].map(|at| (at, header[at] == 0)));
    rules.push((26, b"OLA".contains(&header[26])));
    rules.push((28, end <= count));
    rules.push((32, start <= end));
    rules.push((36, loop_length <= end));
    rules
}

fn rules_1000(header: &[u8]) -> Vec<Ruled> {
    let four = |at: usize| number(&header[at..at + 4]);
    let (count, start, end) = (four(26), four(30), four(34));
    let tuned = |at: usize| (-50..=50).contains(&(header[at] as i8));
    let mut rules: Vec<Ruled> = Vec::new();
    rules.push((0, header[0] == 3));
    rules.push((2, header[2] <= 127));
    rules.extend((3..15).map(|at| (at, character_of(header[at]).is_some())));
    rules.push((15, header[15] == 128));
    rules.push((16, header[16] <= 8));
    rules.push((19, header[19] <= 3));
    rules.extend([20, 21].map(|at| (at, tuned(at))));
    rules.push((30, start <= end));
    rules.push((34, end <= count));
    rules
}
