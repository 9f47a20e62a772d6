//! The published default values of every row of a program are one that is accepted.

use model::files::default_program;
use model::program::check;

#[test]
fn defaults_are_accepted() {
    assert_eq!(check(&default_program()), Ok(1));
}

#[test]
fn a_second_keygroup_has_the_next_address() {
    let mut file = default_program();
    file[42] = 2;
    file.extend_from_within(150..300);
    let place = |file: &[u8]| check(file).map_err(|refusal| refusal.place);
    assert_eq!(place(&file), Err(301));
    file[301..303].copy_from_slice(&450u16.to_le_bytes());
    assert_eq!(place(&file), Ok(2));
}
