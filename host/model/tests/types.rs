//! Names that stand in more than one type (document 02, request six), on every kind of disk.

mod common;

use common::{at, empty, map, slot};
use model::Refusal;
use model::calls::{check, find, list, page, put, remove};
use model::layout::{Kind, LAYOUTS, Layout};
use model::script::{PART, run};

fn counts(image: &[u8]) -> (usize, usize) {
    let checked = check(image).expect("accepted");
    (checked.files, checked.free)
}

/// The types of samples and of programs and one of neither; then bytes that are no types: 0, letters of other kinds, and those next to
/// the kind's own.
fn types(kind: Kind) -> ([u8; 3], [u8; 8]) {
    match kind {
        Kind::S900 => (*b"SPZ", [0, b's', b'p', 211, 64, 91, 243, 255]),
        Kind::S1000 => (*b"spz", [0, b'S', b'P', 211, 96, 123, 243, 255]),
        Kind::S3000 => ([211, 208, 218], [0, b'S', b's', 80, 192, 219, 243, 255]),
    }
}

/// A name with spaces up to the kind's length.
fn padded(name: &str, kind: Kind) -> Vec<u8> {
    let letters = if kind == Kind::S900 { 10 } else { 12 };
    format!("{name:<letters$}").into_bytes()
}

/// What a file of two blocks holds.
fn content(file_type: u8) -> Vec<u8> {
    (0..1500).map(|at| at as u8 ^ file_type).collect()
}

/// PIANO as a sample in slot 0 and as a program in slot 1.
fn pianos(layout: Layout) -> Vec<u8> {
    let mut image = empty(layout);
    for (slot, &file_type) in types(layout.kind).0[..2].iter().enumerate() {
        assert_eq!(put(&mut image, &padded("PIANO", layout.kind), file_type, &content(file_type)), Ok(slot));
    }
    image
}

/// A slot's whole content is that of a file of this type.
fn holds(image: &[u8], slot: usize, file_type: u8) {
    let mut output = [0; 1500];
    assert_eq!(page(image, slot, 0, &mut output).map(|page| (page.count, page.end)), Ok((1500, true)));
    assert_eq!(output[..], content(file_type));
}

/// A program may have its sample's name, on every kind of disk; each is found, paged and put again for itself.
#[test]
fn names_differ_within_one_type() {
    for layout in LAYOUTS {
        let (kind, mut image) = (layout.kind, pianos(layout));
        let ([sample, program, other], _) = types(kind);
        assert_eq!(counts(&image), (2, layout.data_blocks() - 4));
        let name = padded("PIANO", kind);
        for (slot, file_type) in [(0, sample), (1, program)] {
            assert_eq!(find(&image, &name, file_type), Ok(slot));
            assert_eq!(
                list(&image, slot).map(|listed| (listed.name, listed.file_type)),
                Ok((name.clone(), file_type))
            );
            holds(&image, slot, file_type);
            assert_eq!(put(&mut image, &name, file_type, b"x"), Err(Refusal { number: 12, place: slot }));
        }
        assert_eq!(find(&image, &name, other), Err(Refusal { number: 10, place: 0 }));
        assert_eq!(put(&mut image, &name, other, b"x"), Ok(2));
        assert_eq!(find(&image, &name, other), Ok(2));
    }
}

/// One of the two is removed, by its type, and the other stays as it was.
#[test]
fn removal_is_by_name_and_type() {
    for layout in LAYOUTS {
        let (name, [sample, program, other]) = (padded("PIANO", layout.kind), types(layout.kind).0);
        for (gone, stays, slot) in [(sample, program, 1), (program, sample, 0)] {
            let mut image = pianos(layout);
            let before = image.clone();
            assert_eq!(remove(&mut image, &name, other), Err(Refusal { number: 10, place: 0 }));
            assert!(image == before);
            assert_eq!(remove(&mut image, &name, gone), Ok(()));
            assert_eq!(counts(&image), (1, layout.data_blocks() - 2));
            assert_eq!(find(&image, &name, stays), Ok(slot));
            holds(&image, slot, stays);
            let data = 1024 * layout.first();
            assert!(image[data..] == before[data..]);
            for answer in [find(&image, &name, gone).map(|_| ()), remove(&mut image, &name, gone)] {
                assert_eq!(answer, Err(Refusal { number: 10, place: 0 }));
            }
            assert_eq!(put(&mut image, &name, gone, &content(gone)), Ok(1 - slot));
            assert!(image == before);
        }
    }
}

/// An illegal type is 11, whether the name is there or not, and so is an illegal name; then 10 for a name that is there in
/// another type only. The check comes before both.
#[test]
fn illegal_types_are_refused_before_absent_files() {
    for layout in LAYOUTS {
        let ([sample, _, other], illegal) = types(layout.kind);
        let before = pianos(layout);
        let mut image = before.clone();
        let mut asked = |name: &[u8], file_type: u8, number: u32| {
            let refused = Err(Refusal { number, place: 0 });
            assert_eq!(
                (find(&image, name, file_type), remove(&mut image, name, file_type)),
                (refused.map(|()| 0), refused)
            );
            assert!(image == before);
        };
        for name in ["PIANO", "ORGAN"] {
            let name = padded(name, layout.kind);
            illegal.iter().for_each(|&file_type| asked(&name, file_type, 11));
            asked(&name[1..], sample, 11);
            asked(&[&name[1..], b"\x7f"].concat(), sample, 11);
            asked(&name, other, 10);
        }
        asked(&padded("ORGAN", layout.kind), sample, 10);
        let name = padded("PIANO", layout.kind);
        for &file_type in &illegal {
            assert_eq!(put(&mut image, &name, file_type, b"x"), Err(Refusal { number: 11, place: 0 }));
        }
        map(&mut image, 700, 700);
        assert_eq!(find(&image, &name, illegal[0]), Err(Refusal { number: 9, place: 700 }));
        assert_eq!(remove(&mut image, &name[1..], sample), Err(Refusal { number: 9, place: 700 }));
    }
}

/// 5 is for a name that stands in one type twice, whatever stands between.
#[test]
fn a_name_twice_in_one_type_is_refused() {
    for layout in LAYOUTS {
        let [sample, program, other] = types(layout.kind).0;
        for (types, refusal) in [
            (vec![sample, program, other], None),
            (vec![sample, sample], Some(1)),
            (vec![sample, program, sample], Some(2)),
            (vec![sample, program, program, sample], Some(2)),
            (vec![sample, program, other, other, program, sample], Some(3)),
        ] {
            let mut image = empty(layout);
            let end = if layout.kind == Kind::S900 { 32768 } else { 49152 };
            for (number, &file_type) in types.iter().enumerate() {
                slot(&mut image, number, 1, 40 + number as u16);
                map(&mut image, 40 + number, end);
                let (first, own) = (at(&image, 0), at(&image, number));
                image.copy_within(first..first + 16, own);
                image[own + 16] = file_type;
            }
            match refusal {
                Some(place) => assert_eq!(check(&image), Err(Refusal { number: 5, place })),
                None => assert_eq!(counts(&image), (3, layout.data_blocks() - 3)),
            }
        }
    }
}

/// An entry of a script has the type in byte 1, for find and remove too.
#[test]
fn scripts_give_the_type() {
    for layout in LAYOUTS {
        let ([sample, program, other], illegal) = types(layout.kind);
        let (mut image, pool) = (pianos(layout), padded("PIANO", layout.kind));
        let (mut script, letters) = (Vec::new(), pool.len() as u8);
        let calls = [(2, program, 0, 1), (3, other, 10, 0), (3, illegal[1], 11, 0), (3, sample, 0, 0)];
        let after = [(2, sample, 10, 0), (2, program, 0, 1), (3, program, 0, 0), (2, program, 10, 0)];
        for (operation, file_type, _, _) in calls.into_iter().chain(after) {
            script.extend([operation, file_type, 9, 9, 0, 0, 0, 0, letters, 0, 0, 0, 9, 9, 9, 9, 9, 9, 9, 9]);
        }
        let mut output = vec![9; 8 * PART];
        assert_eq!(run(&mut image, &script, &pool, &mut output), 8);
        for ((_, _, refusal, value), part) in calls.into_iter().chain(after).zip(output.chunks(PART)) {
            assert_eq!(part[..20], [&[refusal, 0, 0, value][..], &[0; 16]].concat());
        }
        assert_eq!(counts(&image), (0, layout.data_blocks()));
    }
}
