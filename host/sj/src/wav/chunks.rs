//! The chunks of a RIFF file: a name, a length, that many bytes, and one more where the length is odd.

/// A chunk.
pub struct Chunk<'a> {
    /// Its name, four bytes.
    pub name: &'a [u8],
    /// The length that it tells.
    pub length: usize,
    /// As much of it as is there.
    pub body: &'a [u8],
    /// What follows it.
    pub after: &'a [u8],
}

impl Chunk<'_> {
    /// Whether the file ends within it.
    pub fn is_cut(&self) -> bool {
        self.body.len() < self.length
    }
}

/// The chunk at the front of some bytes; None where not even its name and length are there.
fn first(bytes: &[u8]) -> Option<Chunk<'_>> {
    let length = u32::from_le_bytes(bytes.get(4..8)?.try_into().ok()?) as usize;
    let rest = &bytes[8..];
    let body = &rest[..length.min(rest.len())];
    let after = rest.get(length.saturating_add(length % 2)..).unwrap_or_default();
    Some(Chunk { name: &bytes[..4], length, body, after })
}

/// The chunks that some bytes hold one after another.
pub fn chunks(bytes: &[u8]) -> impl Iterator<Item = Chunk<'_>> {
    std::iter::successors(first(bytes), |chunk| first(chunk.after))
}

/// Whether bytes are whole chunks and nothing else. Names are printable, so that silence isn't taken for chunks.
pub fn are_chunks(mut bytes: &[u8]) -> bool {
    while !bytes.is_empty() {
        match first(bytes) {
            Some(chunk) if !chunk.is_cut() && chunk.name.iter().all(|byte| (32..127).contains(byte)) => {
                bytes = chunk.after;
            }
            _ => return false,
        }
    }
    true
}

/// Adds a chunk to a file; its body's length is even.
pub fn add(file: &mut Vec<u8>, name: &[u8; 4], body: &[u8]) {
    file.extend(name);
    file.extend((body.len() as u32).to_le_bytes()); // samples fit a floppy
    file.extend(body);
}
