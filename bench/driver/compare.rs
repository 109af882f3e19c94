//! The same questions to the Rust and to the proved library, single and as lists.

use super::decks;
use super::judge::{self, Window};
use super::lent::Lent;
use super::listings;
use super::made;
use crate::driver::admission;
use crate::driver::answer::Subject;
use crate::driver::call;
use crate::driver::record::{MITOCHONDRIAL, Tx};
use crate::driver::rng::Rng;
use std::fmt::Write;
use vareffect_proved::{self as proved, Call, Deck, Listing, Refusal, Transcript};

/// What was asked and where answers differ: the smallest such input.
struct Tally {
    kind: &'static str,
    asked: u64,
    refused: u64,
    different: u64,
    smallest: Option<(usize, String)>,
}

impl Tally {
    fn new(kind: &'static str) -> Self {
        Self {
            kind,
            asked: 0,
            refused: 0,
            different: 0,
            smallest: None,
        }
    }

    /// Counts a question; a difference is kept where it is smaller than those before.
    fn count(&mut self, same: bool, refused: bool, input: impl FnOnce() -> String) {
        self.asked += 1;
        self.refused += u64::from(refused);
        if same {
            return;
        }
        self.different += 1;
        let text = input();
        if self
            .smallest
            .as_ref()
            .is_none_or(|(size, _)| text.len() < *size)
        {
            self.smallest = Some((text.len(), text));
        }
    }

    fn print(&self) {
        println!(
            "{}: {} asked, {} of them refused, {} different",
            self.kind, self.asked, self.refused, self.different
        );
        if let Some((_, text)) = &self.smallest {
            println!("the smallest difference:\n{text}");
        }
    }
}

/// The transcript in the words of `oracle ask`.
fn told(tx: &Tx) -> String {
    let mut text = String::new();
    let strand = if tx.minus { "minus" } else { "plus" };
    let start = if tx.start_complete {
        "complete"
    } else {
        "incomplete"
    };
    let _ = write!(
        text,
        "transcript {} {} {strand} {start}\nexons",
        tx.id, tx.chrom
    );
    for exon in &tx.exons {
        let _ = write!(text, " {}-{}", exon.0, exon.1);
    }
    if let Some(cds) = tx.cds {
        let _ = write!(text, "\ncds {}-{} 0\nsegments", cds.0, cds.1);
    }
    for s in &tx.segments {
        let _ = write!(text, " {}:{}:{}-{}", s.phase, s.exon, s.start, s.end);
    }
    if !tx.sec.is_empty() {
        let bases: Vec<String> = tx.sec.iter().map(u32::to_string).collect();
        let _ = write!(text, "\nselenocysteine {}", bases.join(" "));
    }
    text
}

fn numbered<T>(answer: &Result<T, Refusal>) -> u8 {
    answer.as_ref().err().map_or(0, |refusal| refusal.number)
}

/// An altered transcript: is it admitted, and by every question alike?
fn admissions(rng: &mut Rng, tx: &Tx, tally: &mut Tally) {
    let tx = made::altered(rng, tx);
    let lent = Lent::new(&tx);
    let t = lent.transcript();
    let due = admission::admit(tx.clone()).err().unwrap_or(0);
    let got = [
        numbered(&t.admit()),
        numbered(&t.places(1, &[])),
        numbered(&t.calls(EMPTY, &[])),
        numbered(&t.interval(tx.chrom, 0, 0)),
    ];
    tally.count(got == [due; 4], due != 0, || {
        format!("{}\nadmit: the Rust {due}, the library {got:?}", told(&tx))
    });
}

/// A deck of some transcripts, at times altered or spoilt: is it accepted, which transcripts has it, and what is listed?
fn deck(rng: &mut Rng, tx: &Tx, tally: &mut Tally) {
    let mut all = vec![tx.clone()];
    for id in 0..rng.below(4) {
        all.push(made::transcript(rng, id));
    }
    if rng.chance(40) {
        let one = rng.below(all.len() as u32) as usize;
        all[one] = made::altered(rng, &all[one]);
    }
    // A deck has selenocysteine bases only behind the bounds of a CDS.
    for tx in all.iter_mut().filter(|tx| tx.cds.is_none()) {
        tx.sec.clear();
    }
    let mut bytes = decks::encode(&all);
    let whole = !rng.chance(50);
    if !whole {
        decks::spoil(rng, &mut bytes);
    }
    let s = Subject::new(tx.clone());
    let window = listings::window_file(rng, &s);
    let calls = listings::call_file(rng, &s, &window);
    let due = decks::judge(&bytes);
    let got = Deck::read(&bytes);
    let alike = match (&due, &got) {
        (Ok(due), Ok(deck)) => {
            let lines = listings::lines(due, &window, &calls);
            // A deck that was not spoilt has the transcripts that it was made from.
            decks::same_transcripts(deck, due.iter().map(|s| &s.tx))
                && (!whole || decks::same_transcripts(deck, all.iter()))
                && Deck::check(&bytes) == Ok(())
                && Deck::ids(&bytes) == Ok(due.iter().map(|s| s.tx.id).collect())
                && listings::same_pieces(rng, &deck.list(&window, &calls), &lines)
        }
        (Err((number, record)), Err(got)) => {
            let line = format!("0 {record} {number}\n").into_bytes();
            (*number, Some(*record)) == (got.number, got.record.map(usize::from))
                && Deck::check(&bytes) == Err(*got)
                && Deck::ids(&bytes) == Err(*got)
                && listings::same_pieces(rng, &Listing::of_files(&bytes, &window, &calls), &[line])
        }
        _ => false,
    };
    tally.count(alike, due.is_err(), || {
        let due = due.map(|due| due.len());
        format!("deck {bytes:?}\nwindow {window:?}\ncalls {calls:?}: the Rust {due:?}, the library {got:?}")
    });
}

const EMPTY: proved::Window<'static> = proved::Window {
    chromosome: 1,
    first: 0,
    bases: &[],
};

fn places(rng: &mut Rng, s: &Subject, t: &Transcript, tally: &mut Tally) {
    let own = s.tx.chrom;
    let chromosome = if rng.chance(98) {
        own
    } else {
        rng.below(27) as u16
    };
    let positions: Vec<u64> = (0..100).map(|_| made::position(rng, &s.tx)).collect();
    let list = t.places(chromosome, &positions);
    for (i, &start) in positions.iter().enumerate() {
        let length = if rng.chance(90) {
            1
        } else {
            rng.below(4).into()
        };
        let end = start.saturating_add(length);
        let due = judge::place(s, chromosome, start, end);
        let got = t.place(chromosome, start, end);
        let alike = match (&due, &got) {
            (Ok(due), Ok(got)) => judge::same_place(due, got),
            (Err(due), Err(got)) => *due == got.number,
            _ => false,
        };
        // In a list the question is [start, start + 1).
        let listed = match &list {
            Ok(list) => length != 1 || list[i] == got,
            Err(_) => false,
        };
        tally.count(alike && listed, due.is_err(), || {
            format!(
                "{}\nplace {chromosome} {start} {end}: the Rust {due:?}, the library {got:?}, in a list {:?}",
                told(&s.tx),
                list.as_ref().map(|list| list[i])
            )
        });
    }
}

fn intervals(rng: &mut Rng, s: &Subject, t: &Transcript, tally: &mut Tally) {
    for _ in 0..60 {
        let chromosome = if rng.chance(99) {
            s.tx.chrom
        } else {
            rng.below(27) as u16
        };
        let (start, end) = made::interval(rng, &s.tx);
        let due = judge::interval(s, chromosome, start, end);
        let got = t
            .interval(chromosome, start, end)
            .map_err(|refusal| refusal.number);
        tally.count(due == got, due.is_err(), || {
            format!(
                "{}\ninterval {chromosome} {start} {end}: the Rust {due:?}, the library {got:?}",
                told(&s.tx)
            )
        });
    }
}

fn calls(rng: &mut Rng, s: &Subject, t: &Transcript, tally: &mut Tally, lines: &mut Tally) {
    let (first, bytes) = made::window(rng, &s.tx, &s.index);
    let own = s.tx.chrom;
    let chromosome = if rng.chance(98) {
        own
    } else {
        rng.below(27) as u16
    };
    let asked: Vec<Call> = (0..100)
        .map(|_| made::call(rng, &s.tx, first, &bytes))
        .collect();
    let fasta = call::window(&s.tx, first, bytes);
    let window = Window { chromosome, fasta };
    let list = t.calls(judge::lent(&window), &asked);
    for (i, &one) in asked.iter().enumerate() {
        let due = judge::call(s, &window, &one);
        let got = t.call(judge::lent(&window), one);
        let place = judge::place(s, own, one.position, one.position.saturating_add(1));
        let alike = match (&due, &got) {
            (Ok(due), Ok(got)) => place
                .as_ref()
                .is_ok_and(|place| judge::same_answer(place, due, got)),
            (Err(due), Err(got)) => *due == got.number,
            _ => false,
        };
        let listed = list.as_ref().is_ok_and(|list| list[i] == got);
        tally.count(alike && listed, due.is_err(), || {
            format!(
                "{}\nwindow {chromosome} {first} {}\n{one:?}: the Rust {due:?}, the library {got:?}, in a list {:?}",
                told(&s.tx),
                window.fasta.bytes.escape_ascii(),
                list.as_ref().map(|list| list[i])
            )
        });
        let number = rng.next() >> rng.below(64);
        let written = judge::line(number, s.tx.id, &place, &due);
        let got = t.line(number, judge::lent(&window), one);
        lines.count(written == got, due.is_err(), || {
            format!(
                "{}\nwindow {chromosome} {first} {}\n{one:?}: the Rust {}, the library {}",
                told(&s.tx),
                window.fasta.bytes.escape_ascii(),
                written.escape_ascii(),
                got.escape_ascii()
            )
        });
    }
}

/// What is counted apart.
const KINDS: [&str; 7] = [
    "admission",
    "deck",
    "place",
    "interval",
    "call on chromosomes 1 to 24",
    "call on chromosome 25",
    "line",
];

/// Asks about `count` questions and prints what differs; whether nothing does.
pub fn run(count: u64, seed: u64) -> bool {
    let mut rng = Rng::new(seed);
    let mut tallies = KINDS.map(Tally::new);
    let mut transcripts = 0_u32;
    while tallies.iter().map(|t| t.asked).sum::<u64>() < count {
        transcripts += 1;
        let tx = made::transcript(&mut rng, transcripts);
        let [admitted, dealt, placed, beside, called, mito, printed] = &mut tallies;
        for _ in 0..4 {
            admissions(&mut rng, &tx, admitted);
        }
        if transcripts % 4 == 0 {
            deck(&mut rng, &tx, dealt);
        }
        let lent = Lent::new(&tx);
        let subject = Subject::new(tx);
        places(&mut rng, &subject, &lent.transcript(), placed);
        intervals(&mut rng, &subject, &lent.transcript(), beside);
        let own = if subject.tx.chrom == MITOCHONDRIAL {
            mito
        } else {
            called
        };
        calls(&mut rng, &subject, &lent.transcript(), own, printed);
    }
    let asked: u64 = tallies.iter().map(|t| t.asked).sum();
    let different: u64 = tallies.iter().map(|t| t.different).sum();
    println!(
        "{asked} questions about {transcripts} transcripts, seed {seed}: {different} different"
    );
    tallies.iter().for_each(Tally::print);
    different == 0
}
