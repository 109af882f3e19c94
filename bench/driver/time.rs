//! Times of the Rust and of the proved library on the same questions.

use super::lent::Lent;
use super::made::gene;
use crate::consequence::snv::annotate_snv_verified;
use crate::driver::answer::Subject;
use crate::driver::call::window;
use crate::driver::rng::Rng;
use crate::driver::shape::{coding_bases, coordinate, exonic};
use crate::fasta::FastaReader;
use crate::locate::{LocateIndex, locate_variant};
use std::hint::black_box;
use std::time::Instant;
use vareffect_proved::{Call, Refusal, Transcript, Window};

/// How many exons the transcripts have.
const SIZES: [u32; 5] = [1, 10, 100, 363, 512];
/// Questions in a list.
const MANY: usize = 4096;

/// The best time of several runs, in nanoseconds, for one of `count`.
fn best(count: usize, mut work: impl FnMut()) -> f64 {
    let mut least = f64::INFINITY;
    let begin = Instant::now();
    let mut runs = 0;
    while runs < 20 || begin.elapsed().as_millis() < 400 {
        let from = Instant::now();
        work();
        least = least.min(from.elapsed().as_secs_f64());
        runs += 1;
    }
    least * 1e9 / count as f64
}

/// The Rust first, then the library: times and ratio.
fn line(what: &str, exons: u32, theirs: f64, ours: f64) {
    println!(
        "{what:<28} {exons:>5} {theirs:>10.1} {ours:>10.1} {:>7.2}",
        theirs / ours
    );
}

struct Case {
    subject: Subject,
    lent: Lent,
    fasta: FastaReader,
    places: Vec<u64>,
    calls: Vec<(u64, u8, u8)>,
}

fn case(rng: &mut Rng, count: u32, minus: bool) -> Case {
    let tx = gene(rng, count, minus);
    let (low, end) = (tx.tx_start(), tx.tx_end());
    // Half of the positions anywhere on the transcript, half in exons.
    let total = exonic(&tx);
    let places = (0..MANY).map(|i| match i % 2 {
        0 => u64::from(rng.between(low - 100, end + 99)),
        _ => u64::from(coordinate(&tx, rng.below(total))),
    });
    let places = places.collect();
    let bytes: Vec<u8> = (low..end).map(|_| rng.pick(b"ACGT")).collect();
    let coding = coding_bases(&tx);
    let calls = (0..MANY).map(|_| {
        let at = rng.pick(&coding);
        let reference = bytes[(at - low) as usize];
        let alt = loop {
            let alt = rng.pick(b"ACGT");
            if alt != reference {
                break alt;
            }
        };
        (u64::from(at), reference, alt)
    });
    let calls = calls.collect();
    let fasta = window(&tx, low, bytes);
    let lent = Lent::new(&tx);
    Case {
        subject: Subject::new(tx),
        lent,
        fasta,
        places,
        calls,
    }
}

fn proved_places(t: &Transcript, places: &[u64], out: &mut [i64]) -> Result<(), Refusal> {
    t.places_into(t.model.chromosome, places, out)
}

fn proved_place(t: &Transcript, at: u64, out: &mut [i64; 8]) -> Result<(), Refusal> {
    t.place_into(t.model.chromosome, at, at + 1, out)
}

struct Lists {
    chromosomes: Vec<u16>,
    positions: Vec<u64>,
    refs: Vec<u8>,
    alts: Vec<u8>,
}

fn lists(c: &Case) -> Lists {
    Lists {
        chromosomes: vec![c.subject.tx.chrom; c.calls.len()],
        positions: c.calls.iter().map(|c| c.0).collect(),
        refs: c.calls.iter().map(|c| c.1).collect(),
        alts: c.calls.iter().map(|c| c.2).collect(),
    }
}

fn lent<'a>(t: &Transcript, w: &'a FastaReader) -> Window<'a> {
    Window {
        chromosome: t.model.chromosome,
        first: w.first,
        bases: &w.bytes,
    }
}

fn proved_calls(
    t: &Transcript,
    w: &FastaReader,
    l: &Lists,
    out: &mut [i64],
) -> Result<(), Refusal> {
    t.calls_into(
        lent(t, w),
        &l.chromosomes,
        &l.positions,
        &l.refs,
        &l.alts,
        out,
    )
}

fn proved_call(
    t: &Transcript,
    w: &FastaReader,
    c: (u64, u8, u8),
    out: &mut [i64; 20],
) -> Result<(), Refusal> {
    let call = Call {
        chromosome: t.model.chromosome,
        position: c.0,
        ref_base: c.1,
        alt_base: c.2,
    };
    t.call_into(lent(t, w), call, out)
}

fn build(s: &Subject) -> LocateIndex {
    LocateIndex::build(black_box(&s.model)).expect("an index")
}

/// Rust: the index; ours: admission alone, then admission and index.
fn time_build(count: u32, strand: &str, c: &Case) {
    let theirs = best(16, || {
        for _ in 0..16 {
            black_box(build(&c.subject));
        }
    });
    let t = c.lent.transcript();
    let admit = best(16, || {
        for _ in 0..16 {
            assert_eq!(black_box(&t).admit(), Ok(()));
        }
    });
    line(&format!("build / admit, {strand}"), count, theirs, admit);
    let index = best(16, || {
        for _ in 0..16 {
            assert_eq!(proved_places(black_box(&t), &[], &mut []), Ok(()));
        }
    });
    line(
        &format!("build / admit + index, {strand}"),
        count,
        theirs,
        index,
    );
}

fn time_places(count: u32, c: &Case, order: &str, places: &[u64]) {
    let (model, index) = (&c.subject.model, &c.subject.index);
    let theirs = best(MANY, || {
        for &at in places {
            let place = locate_variant(&model.chrom, black_box(at), at + 1, model, index);
            let _ = black_box(place.expect("a place"));
        }
    });
    let t = c.lent.transcript();
    let mut out = vec![0; 8 * MANY];
    let ours = best(MANY, || {
        assert_eq!(proved_places(&t, black_box(places), &mut out), Ok(()));
        black_box(&out);
    });
    line(&format!("place, list, {order}"), count, theirs, ours);
    let few = &places[..256];
    let theirs = best(few.len(), || {
        for &at in few {
            let index = build(&c.subject);
            let place = locate_variant(&model.chrom, black_box(at), at + 1, model, &index);
            let _ = black_box(place.expect("a place"));
        }
    });
    let mut one = [0; 8];
    let ours = best(few.len(), || {
        for &at in few {
            assert_eq!(proved_place(&t, black_box(at), &mut one), Ok(()));
        }
    });
    line(&format!("place, single, {order}"), count, theirs, ours);
}

/// One call to the Rust, with an index that it has.
fn rust_call(c: &Case, index: &LocateIndex, (at, reference, alt): (u64, u8, u8)) {
    let model = &c.subject.model;
    let result = annotate_snv_verified(
        &model.chrom,
        black_box(at),
        reference,
        alt,
        model,
        index,
        &c.fasta,
    );
    let _ = black_box(result.expect("an answer"));
}

fn time_calls(count: u32, strand: &str, c: &Case) {
    let theirs = best(MANY, || {
        for &call in &c.calls {
            rust_call(c, &c.subject.index, call);
        }
    });
    let t = c.lent.transcript();
    let lists = lists(c);
    let mut out = vec![0; 20 * MANY];
    let ours = best(MANY, || {
        assert_eq!(
            proved_calls(&t, &c.fasta, black_box(&lists), &mut out),
            Ok(())
        );
        black_box(&out);
    });
    line(&format!("exonic call, list, {strand}"), count, theirs, ours);
    let few = &c.calls[..256];
    let theirs = best(few.len(), || {
        for &call in few {
            let index = build(&c.subject);
            rust_call(c, &index, call);
        }
    });
    let mut one = [0; 20];
    let ours = best(few.len(), || {
        for &call in few {
            assert_eq!(proved_call(&t, &c.fasta, black_box(call), &mut one), Ok(()));
        }
    });
    line(
        &format!("exonic call, single, {strand}"),
        count,
        theirs,
        ours,
    );
}

/// One kind of question to the proved library, for a profiler: some seconds, or a number of rounds.
pub fn spin(what: &str, count: u32, rounds: Option<u32>) -> bool {
    let c = case(&mut Rng::new(11), count, true);
    let t = c.lent.transcript();
    let lists = lists(&c);
    let mut out = vec![0; 20 * MANY];
    let mut work: Box<dyn FnMut() -> Result<(), Refusal>> = match what {
        "admit" => Box::new(|| black_box(&t).admit()),
        "index" => Box::new(|| proved_places(black_box(&t), &[], &mut [])),
        "place" => Box::new(|| proved_place(&t, black_box(c.places[0]), &mut [0; 8])),
        "places" => Box::new(|| proved_places(&t, black_box(&c.places), &mut out[..8 * MANY])),
        "call" => Box::new(|| proved_call(&t, &c.fasta, black_box(c.calls[0]), &mut [0; 20])),
        "calls" => Box::new(|| proved_calls(&t, &c.fasta, black_box(&lists), &mut out)),
        _ => return false,
    };
    let mut ask = |times| (0..times).for_each(|_| assert_eq!(work(), Ok(())));
    if let Some(times) = rounds {
        ask(times);
        return true;
    }
    let begin = Instant::now();
    while begin.elapsed().as_secs() < 3 {
        ask(100);
    }
    true
}

pub fn run() {
    println!(
        "{:<28} {:>5} {:>10} {:>10} {:>7}",
        "what", "exons", "Rust ns", "ours ns", "ratio"
    );
    let mut rng = Rng::new(11);
    for count in SIZES {
        let plus = case(&mut rng, count, false);
        let minus = case(&mut rng, count, true);
        time_build(count, "plus", &plus);
        time_build(count, "minus", &minus);
        time_places(count, &plus, "random", &plus.places);
        let mut ascending = plus.places.clone();
        ascending.sort_unstable();
        time_places(count, &plus, "ascending", &ascending);
        time_calls(count, "plus", &plus);
        time_calls(count, "minus", &minus);
    }
}
