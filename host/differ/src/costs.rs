//! What pages cost, as the program `cases` prints it, against the model. C isn't told costs, so the program is asked: it makes
//! the image of a text, and calls the same pages.

use crate::choose;
use model::calls::{page, page_cost};
use model::cases::{printed_by, text_of};
use model::disk::read;
use model::faults::damage;
use model::layout::{IGNORED, Kind, LAYOUTS, TYPE_AT};
use model::maker::{self, Plan};
use model::random::Random;
use std::path::Path;

/// Pages of a case.
const PAGES: usize = 60;
/// The most bytes that the program pages into.
const ROOM: usize = 65_536;
/// The most bytes of a text that the program reads.
const TEXT: usize = 65_536;
/// Files of an S3000 disk: the text that makes more of them would be too long.
const FILES: usize = 150;

/// How many pages had bytes, had none, and were refused.
#[derive(Clone, Copy, Debug, Default, PartialEq, Eq)]
pub struct Pages {
    /// With bytes, in one block.
    pub one_run: usize,
    /// With bytes, in several blocks.
    pub runs: usize,
    /// Without bytes.
    pub empty: usize,
    /// Refused.
    pub refused: usize,
}

/// Asks the program for pages of a disk, one in four of them damaged, and tells the first line that isn't the model's.
pub fn run(program: &Path, seed: u64, pages: &mut Pages) -> Result<(), String> {
    let mut random = Random::new(seed);
    let layout = random.pick(&LAYOUTS);
    let mut plan = Plan::any(layout, &mut random);
    if layout.kind == Kind::S3000 {
        plan.files = plan.files.min(FILES);
    }
    let mut image = maker::disk(layout, plan, &mut random);
    let disk = read(&image).ok();
    if random.one_in(4) {
        let told = image[TYPE_AT];
        damage(&mut image, layout, &mut random);
        if image[TYPE_AT] == IGNORED {
            image[TYPE_AT] = told; // else data would be a directory, and the text too long
        }
    }
    let (mut text, mut lines) = (text_of(&image), Vec::new());
    for _ in 0..PAGES {
        let slot = choose::slot(layout, disk.as_ref(), &mut random);
        let length = disk.as_ref().and_then(|disk| disk.file(slot)).map_or(1500, |file| file.length);
        let offset = choose::offset(length, &mut random);
        let size = random.pick(&[0, 1, 2, 1023, 1024, 1025, 4096, 10_000, ROOM - 1, ROOM]);
        text += &format!("took {slot} {offset} {size}\n");
        lines.push((
            format!("slot {slot}, offset {offset}, size {size}"),
            told(&image, slot, offset, size, pages),
        ));
    }
    assert!(text.len() <= TEXT, "seed {seed}: a text of {} bytes", text.len());
    let printed = printed_by(program, &text)?;
    for (at, (about, line)) in lines.iter().enumerate() {
        let printed = printed.lines().nth(at).unwrap_or("nothing");
        if printed != line {
            return Err(format!("seed {seed}, {layout:?}, {about}\n  library {printed}\n  model   {line}"));
        }
    }
    Ok(())
}

/// The line of a page by the model.
fn told(image: &[u8], slot: usize, offset: usize, size: usize, pages: &mut Pages) -> String {
    let cost = page_cost(image, slot, offset, size);
    let answer = match page(image, slot, offset, &mut vec![0; size]) {
        Ok(page) => format!("count {} {}", page.count, if page.end { "end" } else { "more" }),
        Err(refusal) => format!("refused {} at {}", refusal.number, refusal.place),
    };
    match cost.runs {
        _ if answer.starts_with("refused") => pages.refused += 1,
        0 => pages.empty += 1,
        1 => pages.one_run += 1,
        _ => pages.runs += 1,
    }
    format!("{answer} links {} runs {}", cost.links, cost.runs)
}
