//! The five kinds of image (document 01, "The disk"; document 02, request five).

/// Bytes of a block.
pub const BLOCK: usize = 1024;
/// Slots of the directory that every image begins with. It is the one in use but on S3000 disks: [`Layout::slots`].
pub const SLOTS: usize = 64;
/// Bytes of a slot.
pub const SLOT_BYTES: usize = 24;
/// Where a slot holds its type.
pub const TYPE_AT: usize = 16;
/// The type in slot 0 of the first directory that says that this directory is ignored: an S3000 disk.
pub const IGNORED: u8 = 255;
/// Where the map begins: two bytes a block.
pub const MAP_AT: usize = 1536;
/// What the map holds at the system blocks of S1000 and S3000 disks.
pub const SYSTEM: usize = 16384;

/// Whose disk it is.
#[derive(Clone, Copy, Debug, PartialEq, Eq)]
pub enum Kind {
    /// S900 and S950: ASCII names of ten bytes.
    S900,
    /// S1000: AKAII names of twelve.
    S1000,
    /// S3000: names as the S1000's, in a directory of its own.
    S3000,
}

/// How many blocks an image has.
#[derive(Clone, Copy, Debug, PartialEq, Eq)]
pub enum Density {
    /// 800 blocks.
    Low,
    /// 1,600 blocks.
    High,
}

/// Kind and density: all that five sorts of image differ by.
#[derive(Clone, Copy, Debug, PartialEq, Eq)]
pub struct Layout {
    /// Whose disk it is.
    pub kind: Kind,
    /// How many blocks it has.
    pub density: Density,
}

/// All five layouts: S3000 disks are of high density alone.
pub const LAYOUTS: [Layout; 5] = [
    Layout { kind: Kind::S900, density: Density::Low },
    Layout { kind: Kind::S900, density: Density::High },
    Layout { kind: Kind::S1000, density: Density::Low },
    Layout { kind: Kind::S1000, density: Density::High },
    Layout { kind: Kind::S3000, density: Density::High },
];

impl Layout {
    /// Blocks of the image.
    pub fn blocks(self) -> usize {
        match self.density {
            Density::Low => 800,
            Density::High => 1600,
        }
    }

    /// The first data block: the map's end decides it on S900 and S1000 disks, the second directory's on S3000 disks.
    pub fn first(self) -> usize {
        match (self.kind, self.density) {
            (Kind::S3000, _) => 17,
            (_, Density::Low) => 4,
            (_, Density::High) => 5,
        }
    }

    /// Slots of the directory in use.
    pub fn slots(self) -> usize {
        match self.kind {
            Kind::S900 | Kind::S1000 => SLOTS,
            Kind::S3000 => 512,
        }
    }

    /// Where a slot of the directory in use begins; the one after the last is the directory's end.
    pub fn slot_at(self, slot: usize) -> usize {
        let directory = match self.kind {
            Kind::S900 | Kind::S1000 => 0,
            Kind::S3000 => 5 * BLOCK,
        };
        directory + SLOT_BYTES * slot
    }

    /// Whether the map marks the system blocks.
    pub fn marks_system(self) -> bool {
        self.kind != Kind::S900
    }

    /// Bytes of the image.
    pub fn image_bytes(self) -> usize {
        self.blocks() * BLOCK
    }

    /// Blocks that files may use.
    pub fn data_blocks(self) -> usize {
        self.blocks() - self.first()
    }

    /// The map value of a file's last block.
    pub fn end_mark(self) -> usize {
        match self.kind {
            Kind::S900 => 32768,
            Kind::S1000 | Kind::S3000 => 49152,
        }
    }

    /// The last two bytes of every slot; on S3000 disks of every used one.
    pub fn identity(self) -> [u8; 2] {
        match self.kind {
            Kind::S900 => [0, 0],
            Kind::S1000 => [0, 3],
            Kind::S3000 => [0, 12],
        }
    }

    /// Whether a number is a data block's.
    pub fn is_link(self, value: usize) -> bool {
        self.first() <= value && value < self.blocks()
    }
}

/// Blocks that a content of this length needs.
pub fn blocks_for(length: usize) -> usize {
    length.div_ceil(BLOCK)
}
