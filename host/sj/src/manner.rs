//! How a run tells what it did.

/// Options that every command takes.
#[derive(Clone, Copy, Debug, Default)]
pub struct Manner {
    /// One JSON object a line, refusals and failures too.
    pub json: bool,
    /// Only refusals and failures are told.
    pub quiet: bool,
    /// What to do about a refusal is told after it.
    pub explain: bool,
}
