//! The panel of the folder demo: its transcripts, and its listing in pieces.

use std::collections::BTreeSet;
use std::fs;
use std::path::Path;
use std::thread;
use vareffect_proved::{Deck, LIST_STACK, Listing, Refusal, STACK, Transcript, Window};

const DECK: &[u8] = include_bytes!("../../../demo/panel/deck.bin");
const WINDOW: &[u8] = include_bytes!("../../../demo/panel/window.bin");
const CALLS: &[u8] = include_bytes!("../../../demo/panel/calls");
const LINES: &[u8] = include_bytes!("../../../demo/panel/lines");

fn spans(starts: &[u64], ends: &[u64]) -> String {
    let both = starts.iter().zip(ends);
    both.map(|(start, end)| format!(" {start}-{end}")).collect()
}

/// The transcript in the words of deck.txt.
fn described(t: Transcript) -> String {
    let strand = format!("{:?}", t.model.strand()).to_lowercase();
    let start = if t.model.start_complete {
        "complete"
    } else {
        "incomplete"
    };
    let (id, chromosome) = (t.model.id, t.model.chromosome);
    let head = format!("transcript {id} {chromosome} {strand} {start}\n");
    let exons = format!("exons{}\n", spans(t.exon_starts, t.exon_ends));
    let cds = t
        .model
        .cds()
        .map(|(start, end)| format!("cds {start}-{end} {}\n", t.seg_phases[0]));
    let bases = t
        .selenocysteine
        .iter()
        .map(|base| format!("selenocysteine {base}\n"));
    head + &exons + &cds.unwrap_or_default() + &bases.collect::<String>()
}

#[test]
fn transcripts() {
    let deck = Deck::read(DECK).unwrap();
    let text: String = deck.transcripts().map(described).collect();
    let told = include_str!("../../../demo/panel/deck.txt");
    let about = |line: &&str| !line.is_empty() && !line.starts_with(['#', 'w', 'b']);
    let due: Vec<&str> = told.lines().filter(about).collect();
    assert_eq!(text.lines().collect::<Vec<&str>>(), due);
    for t in deck.transcripts() {
        assert_eq!(t.admit(), Ok(()));
        assert_eq!(t.model.tx_start, *t.exon_starts.iter().min().unwrap());
        assert_eq!(t.model.tx_end, *t.exon_ends.iter().max().unwrap());
        assert_eq!(usize::from(t.model.exon_count), t.exon_ends.len());
        // Admission judges the segments, with 12: they are the exons cut to the CDS.
        assert_eq!(t.model.has_cds, !t.seg_ends.is_empty());
    }
    let ids: Vec<u32> = deck.transcripts().map(|t| t.model.id).collect();
    assert_eq!(Deck::ids(DECK), Ok(ids));
}

#[test]
fn every_kind_has_its_name() {
    let deck = Deck::read(DECK).unwrap();
    let around: Vec<u64> = (14_000..34_000).collect();
    let mut names = BTreeSet::new();
    for t in deck.transcripts() {
        for place in t.places(t.model.chromosome, &around).unwrap() {
            let place = place.unwrap();
            assert_eq!(format!("{place:?}").split(' ').next(), Some(place.name()));
            names.insert(place.name());
        }
    }
    assert_eq!(names.len(), 13);
}

#[test]
fn refused() {
    let refused = |bytes: &[u8], number, record| {
        let due = Refusal {
            number,
            record: Some(record),
        };
        assert_eq!(Deck::read(bytes).unwrap_err(), due);
        assert_eq!(Deck::check(bytes), Err(due));
        assert_eq!(Deck::ids(bytes), Err(due));
        let line = format!("0 {record} {number}\n").into_bytes();
        assert_eq!(Listing::of_files(bytes, WINDOW, CALLS).whole(), line);
    };
    refused(&[], 22, 0);
    refused(&DECK[1..], 22, 0);
    refused(&[0; 16], 25, 0);
    let mut unknown = DECK.to_vec();
    unknown[32] = 9;
    refused(&unknown, 23, 2);
    let mut phase = DECK.to_vec();
    let segment = phase.chunks(16).position(|record| record[0] == 4).unwrap();
    phase[16 * segment + 1] = 3;
    refused(&phase, 6, 1);
    let deck = Deck::read(DECK).unwrap();
    assert_eq!(deck.list(&WINDOW[..9], CALLS).whole(), b"0 0 27\n");
    assert_eq!(Window::read(&WINDOW[..9]), Err(Refusal::new(27)));
    assert_eq!(Window::read(&[0; 65_537]), Err(Refusal::new(27)));
}

#[test]
fn listing() {
    let deck = Deck::read(DECK).unwrap();
    assert!(deck.list(WINDOW, CALLS).whole() == LINES);
    assert_eq!(deck.list(WINDOW, b"").whole(), b"");
    // One line and calls beyond one piece.
    let many = CALLS.repeat(50);
    let pieces: Vec<Vec<u8>> = deck.list(WINDOW, &many).collect();
    assert!(pieces.len() > 1 && pieces.iter().all(|piece| piece.ends_with(b"\n")));
    assert_eq!(pieces.concat(), deck.list(WINDOW, &many).whole());
}

/// On a thread with the stack that the crate states: the library's and 64 KiB.
fn on_stack<T: Send>(size: usize, work: impl FnOnce() -> T + Send) -> T {
    thread::scope(|scope| {
        let thread = thread::Builder::new().stack_size(size + 65_536);
        let asked = thread.spawn_scoped(scope, work).unwrap();
        asked.join().unwrap()
    })
}

/// Decks with as many transcripts, and with as many exons, as fit into 65,536 bytes.
#[test]
fn full_decks() {
    for (name, transcripts) in [("full-deck-transcripts", 2_047), ("full-deck-exons", 8)] {
        let folder = Path::new(env!("CARGO_MANIFEST_DIR")).join("../../tests/cases");
        let read = |file| fs::read(folder.join(name).join(file)).unwrap();
        let deck = on_stack(STACK, || Deck::read(&read("deck.bin")).unwrap());
        assert_eq!(deck.transcripts().len(), transcripts);
        let (window, calls) = (read("window.bin"), read("calls"));
        let lines = on_stack(LIST_STACK, || deck.list(&window, &calls).whole());
        assert!(lines == read("stdout"), "{name}");
    }
}

#[test]
fn pieces_of_any_size() {
    let deck = Deck::read(DECK).unwrap();
    for size in [1, 60, 100, 1_553, 65_536] {
        let (mut listing, mut lines) = (deck.list(WINDOW, CALLS), Vec::new());
        loop {
            let mut out = vec![b'?'; size];
            match listing.next_into(&mut out) {
                Ok([]) => break,
                Ok(piece) => lines.extend_from_slice(piece),
                Err(refusal) => {
                    // The next line is longer: lend it more.
                    assert_eq!(refusal, Refusal::new(28));
                    assert_eq!(out, vec![b'?'; size]);
                    let longest = &mut [0; 1_553];
                    let more = listing.next_into(longest).unwrap();
                    let first = more.iter().position(|&byte| byte == b'\n').unwrap();
                    assert!(first + 1 > size);
                    lines.extend_from_slice(more);
                }
            }
        }
        assert!(lines == LINES, "pieces of {size}");
    }
}
