//! Each refusal of a transcript and of a question, and the words for all.

use vareffect_proved::example::{TRANSCRIPT, WINDOW};
use vareffect_proved::*;

fn due(number: u8) -> Result<(), Refusal> {
    match number {
        0 => Ok(()),
        number => Err(Refusal::new(number)),
    }
}

#[rustfmt::skip]
#[test]
fn transcripts() {
    let t = TRANSCRIPT;
    let m = t.model;
    let with = |model| Transcript { model, ..t };
    let cases = [
        (0, t),
        (1, with(Model { exon_count: 3, ..m })),
        (1, Transcript { seg_ends: &[130], ..t }),
        (2, with(Model { chromosome: 26, ..m })),
        (3, with(Model { minus: true, ..m })),
        (4, with(Model { tx_end: 191, ..m })),
        (5, with(Model { has_cds: false, ..m })),
        (6, Transcript { seg_phases: &[0, 3], ..t }),
        (7, Transcript { seg_phases: &[1, 1], ..t }),
        (8, Transcript { seg_exons: &[0, 2], ..t }),
        (9, Transcript { seg_exons: &[1, 1], ..t }),
        (10, with(Model { cds_start: 140, ..m })),
        (11, with(Model { cds_end: 150, ..m })),
        (12, Transcript { seg_ends: &[130, 169], ..t }),
        (13, Transcript { selenocysteine: &[109], ..t }),
    ];
    let call = Call { chromosome: 1, position: 111, ref_base: b'T', alt_base: b'C' };
    for (number, t) in &cases {
        assert_eq!(t.admit(), due(*number));
        assert_eq!(t.place(1, 111, 112).map(|_| ()), due(*number));
        assert_eq!(t.places(1, &[111]).map(|_| ()), due(*number));
        assert_eq!(t.interval(1, 111, 112).map(|_| ()), due(*number));
        assert_eq!(t.call(WINDOW, call).map(|_| ()), due(*number));
        assert_eq!(t.calls(WINDOW, &[]).map(|_| ()), due(*number));
    }
}

#[test]
fn places_and_intervals() {
    let place = |c, start, end| TRANSCRIPT.place(c, start, end).unwrap_err().number;
    let interval = |c, start, end| TRANSCRIPT.interval(c, start, end).map(|_| ());
    assert_eq!(place(2, 111, 112), 14);
    assert_eq!(place(1, 111, 111), 15);
    assert_eq!(place(1, 1_000_010_000, 1_000_010_001), 15);
    assert_eq!(interval(2, 130, 131), due(14));
    assert_eq!(interval(1, 131, 130), due(15));
    assert_eq!(interval(1, 130, 130), due(0));
}

#[rustfmt::skip]
#[test]
fn calls() {
    let asked = |window, position, ref_base, alt_base| {
        let call = Call { chromosome: 1, position, ref_base, alt_base };
        TRANSCRIPT.call(window, call).unwrap_err().number
    };
    assert_eq!(asked(Window { chromosome: 2, ..WINDOW }, 111, b'T', b'C'), 14);
    assert_eq!(asked(WINDOW, 1_000_010_000, b'T', b'C'), 15);
    assert_eq!(asked(WINDOW, 111, b'T', b'T'), 16);
    assert_eq!(asked(WINDOW, 111, b'T', b'N'), 16);
    assert_eq!(asked(WINDOW, 190, b'A', b'C'), 17);
    assert_eq!(asked(WINDOW, 111, b't', b'C'), 18);
    assert_eq!(asked(Window { first: 6_000, ..WINDOW }, 6_000, b'A', b'C'), 19);
    let narrow = Window { first: 111, bases: &WINDOW.bases[11..12], ..WINDOW };
    assert_eq!(asked(narrow, 111, b'T', b'C'), 21);
}

/// 20 is retired: chromosome 25 is answered, where ATA reads M as ATG does.
#[rustfmt::skip]
#[test]
fn mitochondrial_calls() {
    let told = |chromosome, alt_base| {
        let t = Transcript { model: Model { chromosome, ..TRANSCRIPT.model }, ..TRANSCRIPT };
        let call = Call { chromosome, position: 112, ref_base: b'G', alt_base };
        let answer = t.call(Window { chromosome, ..WINDOW }, call).map_err(|refusal| refusal.number)?;
        Ok((answer.amino_acids, answer.consequences.names().collect::<Vec<&str>>()))
    };
    assert_eq!(told(25, b'A'), Ok((Some(AminoAcids::One(b'M')), vec!["start_retained_variant"])));
    assert_eq!(told(24, b'A'), Ok((Some(AminoAcids::Change(b'M', b'I')), vec!["start_lost"])));
    assert_eq!(told(25, b'N'), Err(16));
}

#[test]
fn words() {
    let text = |number| (Refusal::new(number).cause(), Refusal::new(number).advice());
    for number in 0..=28 {
        assert_ne!(text(number), text(29), "{number}");
        let known = (0..number).all(|other| text(other).0 != text(number).0);
        assert!(known, "{number} has the cause of another");
    }
    assert_eq!(text(29), text(255));
    let refusal = Refusal {
        number: 24,
        record: Some(3),
    };
    let (cause, advice) = text(24);
    let due = format!("refused, number 24 at record 3: {cause}; what to do: {advice}");
    assert_eq!(refusal.to_string(), due);
}

/// The crate's constants are the header's.
#[test]
fn constants() {
    let header = include_str!("../../c/vareffect.h");
    assert!(header.contains(&format!("#define VAREFFECT_ABI {ABI}\n")));
    assert!(header.contains(&format!("#define VAREFFECT_STACK {STACK}\n")));
    assert!(header.contains(&format!("#define VAREFFECT_LIST_STACK {LIST_STACK}\n")));
    assert_eq!(abi(), ABI);
}
