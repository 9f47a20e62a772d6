//! The plain record of demand 3: what a sequence of calls must behave as, without an image.

use crate::calls::{Checked, Listed, Paged};
use crate::disk::{Disk, content};
use crate::layout::{Layout, blocks_for};
use crate::names::{is_type, kept};
use crate::{Answer, refuse};

/// What a slot of the record holds.
#[derive(Clone, Debug, PartialEq, Eq)]
pub struct Entry {
    /// The name in ASCII, as the disk keeps it.
    pub name: Vec<u8>,
    /// The type byte.
    pub file_type: u8,
    /// The content.
    pub content: Vec<u8>,
}

/// The files by slot. One is known by its name and its type.
#[derive(Clone, Debug, PartialEq, Eq)]
pub struct Record {
    layout: Layout,
    entries: Vec<Option<Entry>>,
}

impl Record {
    /// The files of an accepted image.
    pub fn of(image: &[u8], disk: &Disk) -> Record {
        let entry = |file: &Option<crate::disk::File>| {
            let file = file.as_ref()?;
            Some(Entry { name: file.name.clone(), file_type: file.file_type, content: content(image, file) })
        };
        Record { layout: disk.layout, entries: disk.files.iter().map(entry).collect() }
    }

    fn entry(&self, slot: usize) -> Answer<&Entry> {
        match self.entries.get(slot) {
            Some(Some(entry)) => Ok(entry),
            _ => refuse(10, 0),
        }
    }

    /// The slot whose entry has a name, as the disk keeps it, and a type.
    fn slot_of(&self, name: &[u8], file_type: u8) -> Option<usize> {
        let is = |entry: &Entry| (&entry.name[..], entry.file_type) == (name, file_type);
        self.entries.iter().position(|entry| entry.as_ref().is_some_and(is))
    }

    /// A name as the disk keeps it, or 11 if it or the type isn't legal.
    fn legal(&self, name: &[u8], file_type: u8) -> Answer<Vec<u8>> {
        let kind = self.layout.kind;
        kept(kind, name).filter(|_| is_type(kind, file_type)).map_or(refuse(11, 0), Ok)
    }

    /// The data blocks less those that the contents need.
    fn free(&self) -> usize {
        let used: usize = self.entries.iter().flatten().map(|entry| blocks_for(entry.content.len())).sum();
        self.layout.data_blocks() - used
    }

    /// What the check gives.
    pub fn check(&self) -> Answer<Checked> {
        Ok(Checked { layout: self.layout, files: self.entries.iter().flatten().count(), free: self.free() })
    }

    /// Lists a slot.
    pub fn list(&self, slot: usize) -> Answer<Listed> {
        let entry = self.entry(slot)?;
        Ok(Listed { name: entry.name.clone(), file_type: entry.file_type, length: entry.content.len() })
    }

    /// Finds the slot of a name and a type.
    pub fn find(&self, name: &[u8], file_type: u8) -> Answer<usize> {
        let name = self.legal(name, file_type)?;
        self.slot_of(&name, file_type).map_or(refuse(10, 0), Ok)
    }

    /// Copies a content's bytes from an offset on.
    pub fn page(&self, slot: usize, offset: usize, output: &mut [u8]) -> Answer<Paged> {
        let content = &self.entry(slot)?.content;
        let Some(left) = content.get(offset..) else { return refuse(17, 0) };
        let count = left.len().min(output.len());
        output[..count].copy_from_slice(&left[..count]);
        Ok(Paged { count, end: count == left.len() })
    }

    /// Puts a file into the lowest empty slot.
    pub fn put(&mut self, name: &[u8], file_type: u8, content: &[u8]) -> Answer<usize> {
        let name = self.legal(name, file_type)?;
        if content.is_empty() {
            return refuse(13, 0);
        }
        if let Some(slot) = self.slot_of(&name, file_type) {
            return refuse(12, slot);
        }
        let Some(slot) = self.entries.iter().position(Option::is_none) else { return refuse(14, 0) };
        if blocks_for(content.len()) > self.free() {
            return refuse(15, 0);
        }
        self.entries[slot] = Some(Entry { name, file_type, content: content.to_vec() });
        Ok(slot)
    }

    /// Removes the file with a name and a type.
    pub fn remove(&mut self, name: &[u8], file_type: u8) -> Answer<()> {
        let slot = self.find(name, file_type)?;
        self.entries[slot] = None;
        Ok(())
    }
}
