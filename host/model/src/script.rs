//! Scripts of calls, as `include/skilletjay.h` describes them: entries of 20 bytes, replies of 1,044.

use crate::calls::{find, list, page, put, remove};
use crate::{Answer, number, store};

/// Bytes of an entry, and of a reply before its page.
pub const ENTRY: usize = 20;
/// Bytes of a reply with its page.
pub const PART: usize = ENTRY + 1024;

/// A reply's first 20 bytes as they are told.
#[derive(Default)]
struct Reply {
    refusal: u32,
    /// The refusal's place, or the call's length, count or slot.
    value: usize,
    file_type: u8,
    end: bool,
    name: Vec<u8>,
}

impl Reply {
    /// A refused call tells number and place; a done one what it gives.
    fn of<T>(answer: Answer<T>, done: impl FnOnce(T) -> Reply) -> Reply {
        match answer {
            Ok(given) => done(given),
            Err(refusal) => Reply { refusal: refusal.number, value: refusal.place, ..Reply::default() },
        }
    }

    fn write(&self, part: &mut [u8]) {
        store(&mut part[0..3], self.refusal as usize);
        store(&mut part[3..6], self.value);
        part[6] = self.file_type;
        part[7] = u8::from(self.end);
        part[8..ENTRY].fill(0);
        part[8..8 + self.name.len()].copy_from_slice(&self.name);
    }
}

/// Makes a script's calls and gives how many were made. It ends before an entry that is no call, and where the
/// output has no part left.
pub fn run(image: &mut [u8], script: &[u8], pool: &[u8], output: &mut [u8]) -> usize {
    let mut made = 0;
    for (entry, part) in script.chunks_exact(ENTRY).zip(output.chunks_exact_mut(PART)) {
        let Some(reply) = call(image, entry, pool, &mut part[ENTRY..]) else { return made };
        reply.write(part);
        made += 1;
    }
    made
}

/// Makes the call that an entry is; None if it is none.
fn call(image: &mut [u8], entry: &[u8], pool: &[u8], output: &mut [u8]) -> Option<Reply> {
    let four = |at: usize| number(&entry[at..at + 4]);
    let from_pool = |at: usize| pool.get(four(at)..four(at) + four(at + 4));
    let slot = |slot: usize| Reply { value: slot, ..Reply::default() };
    Some(match entry[0] {
        0 => Reply::of(list(image, four(4)), |listed| Reply {
            value: listed.length,
            file_type: listed.file_type,
            name: listed.name,
            ..Reply::default()
        }),
        1 => Reply::of(page(image, four(4), four(8), output), |paged| Reply {
            value: paged.count,
            end: paged.end,
            ..Reply::default()
        }),
        2 => Reply::of(find(image, from_pool(4)?, entry[1]), slot),
        3 => Reply::of(remove(image, from_pool(4)?, entry[1]), |()| Reply::default()),
        4 => Reply::of(put(image, from_pool(4)?, entry[1], from_pool(12)?), slot),
        _ => return None,
    })
}
