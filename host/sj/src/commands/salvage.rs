//! `sj salvage IMAGE|DIR.. --dry-run`, `--in-place` or `-o FILE|DIR`

mod statement;
mod targets;

use super::many::{Named, Tally};
use crate::arguments::Arguments;
use crate::failure::Failure;
use crate::image_file::{self, Changed, Changing, Locked};
use crate::manner::Manner;
use crate::output;
use crate::save::Draft;
use crate::target::Target;
use statement::{Statement, Sums};
use std::path::{Path, PathBuf};

/// Where a mended image goes.
#[derive(Clone)]
enum Way {
    DryRun,
    InPlace(Changing),
    To(PathBuf),
}

/// An image that is to be mended.
struct Job {
    path: PathBuf,
    way: Way,
}

/// What a mended image waits for until its statement is told. So nothing is lost that nobody was told of.
enum Pending {
    Nothing,
    Place(Changed),
    /// With whether it goes to standard output.
    File(Draft, bool),
}

struct Mended {
    statement: Statement,
    pending: Pending,
}

/// Mends every image, also after one that fails, and tells what is lost. The status is 1 if something is.
pub fn run(arguments: &mut Arguments) -> Result<(), Failure> {
    let (manner, way) = (arguments.manner(), asked(arguments)?);
    let dry = matches!(way, Way::DryRun);
    let mut tally = Tally::default();
    let named = Named::of(arguments.some("the image")?, |failure| tally.fails(&failure, manner));
    let jobs = jobs(&named, way, arguments.flag("--force"))?;
    let mut sums = Sums::default();
    let keep = |mended: Mended| {
        let Mended { statement, pending } = mended;
        pending.keep()?;
        sums.add(&statement);
        Ok(())
    };
    tally.all(&jobs, manner, Job::prepare, |mended| mended.tell(manner), keep)?;
    if sums.dropped > 0 {
        tally.at_least(1);
    }
    let closing = sums.closing(&tally, manner, dry);
    tally.end(named.many && !manner.quiet, &closing)
}

/// Which of the three ways is asked for. None is taken unasked.
fn asked(arguments: &Arguments) -> Result<Way, Failure> {
    let (in_place, dry) = (arguments.flag("--in-place"), arguments.flag("--dry-run"));
    match (arguments.value("-o"), in_place, dry) {
        (Some(to), false, false) => Ok(Way::To(to.into())),
        (None, true, false) => {
            Ok(Way::InPlace(Changing { force: arguments.flag("--force"), timeout: arguments.timeout()? }))
        }
        (None, false, true) => Ok(Way::DryRun),
        (None, false, false) => Err(Failure::usage(
            "salvage writes nothing unasked: give -o FILE, --in-place, or --dry-run to see what would be lost",
        )),
        _ => Err(Failure::usage("give one of -o, --in-place and --dry-run")),
    }
}

/// Each image with the way that it goes.
fn jobs(named: &Named, way: Way, force: bool) -> Result<Vec<Job>, Failure> {
    let paths = named.images.iter().map(|(path, _)| path.clone());
    let Way::To(to) = way else {
        return Ok(paths.map(|path| Job { path, way: way.clone() }).collect());
    };
    let targets = targets::of(named, &to, force)?;
    Ok(paths.zip(targets).map(|(path, to)| Job { path, way: Way::To(to) }).collect())
}

impl Job {
    /// Mends the image; its file is as it was until the pending rest is kept.
    fn prepare(&self) -> Result<Mended, Failure> {
        let path: &Path = &self.path;
        match &self.way {
            Way::DryRun => {
                let statement = Statement::of(path, &self.way, &mut image_file::read_whole(path)?)?;
                Ok(Mended { statement, pending: Pending::Nothing })
            }
            Way::InPlace(how) => {
                let mut locked = Locked::new(path, *how)?;
                let statement = Statement::of(path, &self.way, &mut locked.image)?;
                let pending =
                    if statement.changed { Pending::Place(locked.draft()?) } else { Pending::Nothing };
                Ok(Mended { statement, pending })
            }
            Way::To(to) => {
                let mut image = image_file::read_whole(path)?;
                let statement = Statement::of(path, &self.way, &mut image)?;
                let standard = matches!(Target::of(to)?, Target::Own(1));
                let mut draft = Draft::new(to)?;
                draft.write(image.bytes())?;
                Ok(Mended { statement, pending: Pending::File(draft, standard) })
            }
        }
    }
}

impl Mended {
    /// Tells the statement. Where an image is to be written, it has to arrive. With `--quiet` only losses are told.
    fn tell(&self, manner: Manner) -> Result<(), Failure> {
        if manner.quiet && self.statement.dropped() == 0 {
            return Ok(());
        }
        let text = self.statement.text(manner);
        match self.pending {
            Pending::Nothing => output::say(&text)?,
            Pending::File(_, true) => output::note(&text),
            Pending::Place(_) | Pending::File(..) => output::write(text.as_bytes())?,
        }
        Ok(())
    }
}

impl Pending {
    fn keep(self) -> Result<(), Failure> {
        match self {
            Pending::Nothing => Ok(()),
            Pending::Place(changed) => {
                changed.keep().map_err(|failure| failure.and("the image is as it was"))
            }
            Pending::File(draft, _) => draft.keep(),
        }
    }
}
