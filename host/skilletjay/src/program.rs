//! S1000 program files.

use crate::{Refusal, lend};

/// Whether a file is an S1000 program, and its number of keygroups: 20.
pub fn check(file: &[u8]) -> Result<usize, Refusal> {
    let told = lend::program(file);
    Refusal::or(told.refusal, told.place, told.count)
}

#[cfg(test)]
mod tests {
    use super::*;

    #[test]
    fn short_files_are_refused() {
        let told = |file: &[u8]| check(file).map_err(|refusal| (refusal.number(), refusal.place()));
        assert_eq!(told(&[]), Err((20, 0)));
        assert_eq!(told(&[0; 150]), Err((20, 42)));
    }
}
