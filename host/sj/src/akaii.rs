//! AKAII, the characters of an S1000 and an S3000.

/// The characters in the order of their codes.
const CHARACTERS: &[u8; 41] = b"0123456789 ABCDEFGHIJKLMNOPQRSTUVWXYZ#+-.";

/// The character of a code, if it is one.
pub fn character_of(code: u8) -> Option<char> {
    CHARACTERS.get(usize::from(code)).map(|&character| char::from(character))
}

/// The code of a character, if it has one; small letters have none.
pub fn code_of(character: u8) -> Option<u8> {
    CHARACTERS.iter().position(|&known| known == character).map(|code| code as u8)
}

#[cfg(test)]
mod tests {
    use super::*;

    #[test]
    fn codes_are_the_models() {
        for code in 0..=255 {
            let theirs = model::names::character_of(code).map(char::from);
            assert_eq!(character_of(code), theirs, "{code}");
            assert_eq!(theirs.and_then(|character| code_of(character as u8)), theirs.map(|_| code), "{code}");
        }
        assert_eq!([code_of(b'a'), code_of(b'/')], [None, None]);
    }
}
