//! A file page by page.

use crate::{Image, Refusal, Slot};
use std::iter::FusedIterator;

/// Bytes of a page, unless asked otherwise.
const PAGE: usize = 64 * 1024;

/// A file's pages in order: an iterator that ends after the page that reaches the file's end, or after a refusal.
///
/// Whoever stops early, or meets a refusal, sees it: [`Download::is_complete`] is true only once the end is reached.
///
/// ```
/// # use skilletjay::Image;
/// let mut image = Image::new(vec![0; 819_200]);
/// let slot = image.put("LONG      ", b'S', &[7; 5000])?;
/// let mut download = image.download(slot).pages_of(2048);
/// let mut content = Vec::new();
/// for page in &mut download {
///     content.extend(page?);
/// }
/// assert!(download.is_complete());
/// assert_eq!(content, [7; 5000]);
/// # Ok::<(), skilletjay::Refusal>(())
/// ```
#[derive(Clone, Debug)]
pub struct Download<'a> {
    image: Image<&'a [u8]>,
    slot: Slot,
    offset: usize,
    page: usize,
    complete: bool,
    refused: bool,
}

impl<'a> Download<'a> {
    pub(crate) fn new(image: &'a [u8], slot: Slot) -> Download<'a> {
        Download { image: Image::new(image), slot, offset: 0, page: PAGE, complete: false, refused: false }
    }

    /// The same with pages of another length: at least 1, and no more than the image has, as no file is longer.
    pub fn pages_of(self, bytes: usize) -> Download<'a> {
        let most = self.image.bytes().len().max(1);
        Download { page: bytes.clamp(1, most), ..self }
    }

    /// Bytes given so far.
    pub fn offset(&self) -> usize {
        self.offset
    }

    /// Whether the file's end was reached: all of it was given.
    pub fn is_complete(&self) -> bool {
        self.complete
    }
}

impl Iterator for Download<'_> {
    type Item = Result<Vec<u8>, Refusal>;

    fn next(&mut self) -> Option<Self::Item> {
        if self.complete || self.refused {
            return None;
        }
        let mut page = vec![0; self.page];
        match self.image.page(self.slot, self.offset, &mut page) {
            Ok(paged) => {
                page.truncate(paged.count);
                self.offset += paged.count;
                self.complete = paged.end;
                Some(Ok(page))
            }
            Err(refusal) => {
                self.refused = true;
                Some(Err(refusal))
            }
        }
    }
}

impl FusedIterator for Download<'_> {}

#[cfg(test)]
mod tests {
    use super::*;

    #[test]
    fn pages_of_every_length_join_to_the_file() {
        let content: Vec<u8> = (0..5000u32).map(|at| (at % 251) as u8).collect();
        let mut image = Image::new(vec![0; 819_200]);
        let slot = image.put("A         ", b'S', &content).expect("room");
        for length in [0, 1, 1000, 1023, 1024, 1025, 4999, 5000, 5001, 100_000] {
            let mut download = image.download(slot).pages_of(length);
            let pages: Result<Vec<Vec<u8>>, Refusal> = download.by_ref().collect();
            assert_eq!(pages.map(|pages| pages.concat()), Ok(content.clone()));
            assert!(download.is_complete() && download.offset() == 5000 && download.next().is_none());
        }
    }

    /// A page is no longer than an image, so that it needs no more memory.
    #[test]
    fn huge_pages_are_cut_to_the_image() {
        let mut image = Image::new(vec![0; 819_200]);
        let slot = image.put("A         ", b'S', &[1; 3000]).expect("room");
        for length in [819_201, 1 << 40, usize::MAX] {
            let mut download = image.download(slot).pages_of(length);
            let page = download.next().expect("a page").expect("accepted");
            assert!(page == [1; 3000] && page.capacity() <= 819_200 && download.is_complete());
        }
        let refused = Image::new([]).download(slot).pages_of(usize::MAX).next();
        assert!(refused.is_some_and(|page| page.is_err_and(|refusal| refusal.number() == 1)));
    }

    #[test]
    fn an_early_stop_and_a_refusal_are_not_complete() {
        let mut image = Image::new(vec![0; 819_200]);
        let slot = image.put("A         ", b'S', &[1; 3000]).expect("room");
        let mut download = image.download(slot).pages_of(1024);
        assert!(download.next().is_some() && !download.is_complete());
        let mut missing = image.download(Slot(5));
        assert!(missing.next().is_some_and(|page| page.is_err_and(|refusal| refusal.number() == 10)));
        assert!(missing.next().is_none() && missing.next().is_none() && !missing.is_complete());
        let fused: &mut dyn FusedIterator<Item = Result<Vec<u8>, Refusal>> = &mut missing;
        assert!(fused.next().is_none());
    }
}
