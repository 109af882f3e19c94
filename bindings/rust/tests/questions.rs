//! The example's three calls, its places, and lists against single questions.

use vareffect_proved::example::{TRANSCRIPT, WINDOW};
use vareffect_proved::*;

const LINES: &str = include_str!("../../../crates/example_calls/stdout");

/// The same exons without CDS on minus.
const NON_CODING: Transcript = Transcript {
    model: Model {
        minus: true,
        has_cds: false,
        ..TRANSCRIPT.model
    },
    exon_starts: &[160, 100],
    exon_ends: &[190, 130],
    seg_phases: &[],
    seg_exons: &[],
    seg_starts: &[],
    seg_ends: &[],
    ..TRANSCRIPT
};

fn on(position: u64, ref_base: u8, alt_base: u8) -> Call {
    Call {
        chromosome: 1,
        position,
        ref_base,
        alt_base,
    }
}

const ASKED: [(u64, u8, u8); 3] = [(111, b'T', b'C'), (129, b'A', b'C'), (130, b'A', b'G')];

fn asked() -> [Call; 3] {
    ASKED.map(|(position, from, to)| on(position, from, to))
}

/// A line of the lister.
fn shown(number: u32, id: u32, answer: &ConsequenceResult) -> String {
    let of = |n: Option<Numbered>| n.map_or("-".into(), |n| format!("{}/{}", n.number, n.total));
    let count = |n: Option<u32>| n.map_or("-".into(), |n| n.to_string());
    let text = |t: Option<Vec<u8>>| t.map_or("-".into(), |t| String::from_utf8(t).unwrap());
    let names: Vec<&str> = answer.consequences.names().collect();
    [
        format!("{number} {id} 0 {}", answer.location.name()),
        of(answer.exon),
        of(answer.intron),
        count(answer.cds_position),
        count(answer.cdna_position),
        count(answer.protein_start),
        text(answer.codons.map(|c| c.shown())),
        text(answer.amino_acids.map(|a| a.shown())),
        names.join(",") + "\n",
    ]
    .join(" ")
}

#[test]
fn documented_lines() {
    let answers = TRANSCRIPT.calls(WINDOW, &asked()).unwrap();
    let line = |(i, a): (u32, &Result<_, _>)| shown(i, 7, a.as_ref().unwrap());
    let lines: String = (1..).zip(&answers).map(line).collect();
    assert_eq!(lines, LINES);
}

#[test]
fn printed_lines() {
    let line = |(call, number)| TRANSCRIPT.line(number, WINDOW, call);
    let lines: Vec<u8> = asked().into_iter().zip(1..).flat_map(line).collect();
    assert_eq!(lines, LINES.as_bytes());
    let refused = TRANSCRIPT.line(9, WINDOW, on(111, b'G', b'C'));
    assert_eq!(refused, b"9 7 18\n");
}

#[test]
fn lists_are_the_single_answers() {
    let positions: Vec<u64> = (0..6_000)
        .chain([1_000_009_999, 1_000_010_000, u64::MAX])
        .collect();
    for t in [TRANSCRIPT, NON_CODING] {
        for chromosome in [1, 2] {
            let list = t.places(chromosome, &positions).unwrap();
            for (&p, answer) in positions.iter().zip(list) {
                assert_eq!(answer, t.place(chromosome, p, p.saturating_add(1)), "{p}");
            }
        }
        let asked: Vec<Call> = (95..195)
            .flat_map(|p| b"ACGTN".map(|alt| (p, alt)))
            .flat_map(|(p, alt)| b"AGT".map(|r| on(p, r, alt)))
            .collect();
        let list = t.calls(WINDOW, &asked).unwrap();
        assert_eq!(list.len(), asked.len());
        for (&c, answer) in asked.iter().zip(list) {
            assert_eq!(answer, t.call(WINDOW, c), "{c:?}");
        }
    }
}

#[test]
fn lists_of_the_wrong_length_are_refused_by_1() {
    let (t, one) = (TRANSCRIPT, Err(Refusal::new(1)));
    assert_eq!(t.places_into(1, &[111], &mut [5; 7]), one);
    assert_eq!(
        t.calls_into(WINDOW, &[1], &[], b"T", b"C", &mut [5; 20]),
        one
    );
    let mut out = [5; 21];
    assert_eq!(
        t.calls_into(WINDOW, &[1], &[111], b"T", b"C", &mut out),
        one
    );
    assert_eq!(out, [5; 21]);
}

#[test]
fn intervals() {
    let inside = TRANSCRIPT.interval(1, 110, 120).unwrap();
    assert_eq!((inside.frameshift_intron, inside.spill), (None, None));
    assert_eq!(inside.flank, Flank::Overlaps);
    let flank = |start, end| TRANSCRIPT.interval(1, start, end).unwrap().flank;
    assert_eq!(flank(100, 100), Flank::Upstream(0));
    assert_eq!(flank(6_000, 6_001), Flank::Far);
    // An intron of one base.
    let short = Transcript {
        model: Model {
            tx_end: 161,
            minus: false,
            ..NON_CODING.model
        },
        exon_starts: &[100, 131],
        exon_ends: &[130, 161],
        ..NON_CODING
    };
    let held = short.interval(1, 130, 131).unwrap();
    assert_eq!((held.frameshift_intron, held.spill), (Some(0), None));
    let spill = short.interval(1, 130, 130).unwrap().spill.unwrap();
    assert!(!spill.donor && spill.acceptor);
}
