//! How often calls give a name that differs from one of the same type on the disk in the case of letters alone.

use crate::call::Call;
use model::layout::{IGNORED, Kind, LAYOUTS, SLOT_BYTES, TYPE_AT};
use model::names::name_of;

/// What became of such calls on one layout. On S1000 and S3000 disks both spellings are one name, on S900 disks two.
#[derive(Clone, Copy, Debug, Default, PartialEq, Eq)]
pub struct Spellings {
    /// S1000, S3000: finds that were done.
    pub found: usize,
    /// S1000, S3000: puts that were refused by 12.
    pub used: usize,
    /// S1000, S3000: removals that were done.
    pub removed: usize,
    /// S900: puts that were done, so that both names stand side by side.
    pub beside: usize,
    /// S900: finds and removals that were done, of the one name while the other stood there too.
    pub apart: usize,
}

/// Counts by layout, in the order of [`LAYOUTS`].
pub type Counts = [Spellings; LAYOUTS.len()];

/// The layout that an image's length and its first slot say, as its place in [`LAYOUTS`].
pub(crate) fn layout_of(image: &[u8]) -> Option<usize> {
    let told = |kind: Kind, identity: [u8; 2]| match image[TYPE_AT] {
        IGNORED => kind == Kind::S3000,
        _ => kind != Kind::S3000 && image[SLOT_BYTES - 2..SLOT_BYTES] == identity,
    };
    LAYOUTS
        .iter()
        .position(|layout| image.len() == layout.image_bytes() && told(layout.kind, layout.identity()))
}

/// The layout of an image on which a call's name stands in another spelling, in the call's type, as its place in [`LAYOUTS`].
pub fn met(call: &Call, image: &[u8]) -> Option<usize> {
    let (name, file_type) = call.file()?;
    let at = layout_of(image)?;
    let layout = LAYOUTS[at];
    let other = |slot: usize| {
        let bytes = &image[layout.slot_at(slot)..][..SLOT_BYTES];
        let held = if bytes[TYPE_AT] == file_type { name_of(layout.kind, &bytes[..16]) } else { None };
        held.is_some_and(|held| held != name && held.eq_ignore_ascii_case(name))
    };
    (0..layout.slots()).any(other).then_some(at)
}

/// Counts a call that met another spelling, by what it was refused with, or 0.
pub fn count(counts: &mut Counts, layout: usize, call: &Call, refusal: u32) {
    let sum = &mut counts[layout];
    match (LAYOUTS[layout].kind, call, refusal) {
        (Kind::S1000 | Kind::S3000, Call::Find { .. }, 0) => sum.found += 1,
        (Kind::S1000 | Kind::S3000, Call::Put { .. }, 12) => sum.used += 1,
        (Kind::S1000 | Kind::S3000, Call::Remove { .. }, 0) => sum.removed += 1,
        (Kind::S900, Call::Put { .. }, 0) => sum.beside += 1,
        (Kind::S900, Call::Find { .. } | Call::Remove { .. }, 0) => sum.apart += 1,
        _ => {}
    }
}

impl Spellings {
    /// Adds other counts.
    pub fn add(&mut self, other: &Spellings) {
        self.found += other.found;
        self.used += other.used;
        self.removed += other.removed;
        self.beside += other.beside;
        self.apart += other.apart;
    }
}
