//! Listings of a deck: window and call files, the lines due, and the pieces that the library gives.

use super::judge::{self, Window};
use super::made;
use crate::driver::answer::Subject;
use crate::driver::call_line;
use crate::driver::rng::Rng;
use vareffect_proved::{Call, Listing};

/// A window file on a transcript, at times cut short.
pub fn window_file(rng: &mut Rng, s: &Subject) -> Vec<u8> {
    let (first, bases) = made::window(rng, &s.tx, &s.index);
    let mut file = s.tx.chrom.to_le_bytes().to_vec();
    file.extend(u64::from(first).to_le_bytes());
    file.extend(bases);
    if rng.chance(2) {
        file.truncate(rng.below(12) as usize);
    }
    file
}

/// A call file: a few lines, at times one that is no call, or the last without its newline.
pub fn call_file(rng: &mut Rng, s: &Subject, window: &[u8]) -> Vec<u8> {
    let (head, bases) = window.split_at(window.len().min(10));
    let first = head
        .get(2..6)
        .map_or(0, |b| u32::from_le_bytes(b.try_into().expect("4 bytes")));
    let bases = if bases.is_empty() { b"A" } else { bases };
    let mut file = Vec::new();
    for _ in 0..rng.below(6) {
        let call: Call = made::call(rng, &s.tx, first, bases);
        file.extend(format!("{} {} ", call.chromosome, call.position).bytes());
        file.extend([call.ref_base, b' ', call.alt_base]);
        file.extend(if rng.chance(3) { &b" x\n"[..] } else { b"\n" });
    }
    if rng.chance(3) {
        file.pop();
    }
    file
}

/// The lister's lines for accepted transcripts.
pub fn lines(subjects: &[Subject], window: &[u8], calls: &[u8]) -> Vec<Vec<u8>> {
    let Some(window) = Window::read(window).filter(|_| calls.len() <= 65_536) else {
        return vec![b"0 0 27\n".to_vec()];
    };
    let mut lines = Vec::new();
    for (number, (line, complete)) in (1..).zip(call_line::lines(calls)) {
        let Some(call) = call_line::read(line).filter(|_| complete) else {
            lines.push(format!("{number} 0 26\n").into_bytes());
            continue;
        };
        let call = Call {
            chromosome: call.chromosome,
            position: call.position,
            ref_base: call.reference,
            alt_base: call.alt,
        };
        for s in subjects {
            let end = call.position.saturating_add(1);
            let place = judge::place(s, s.tx.chrom, call.position, end);
            let due = judge::call(s, &window, &call);
            lines.push(judge::line(number, s.tx.id, &place, &due));
        }
    }
    lines
}

/// The size of a buffer: what some of the lines fill, or one byte less, or any.
fn size(rng: &mut Rng, lines: &[Vec<u8>]) -> usize {
    let some = rng.below(lines.len() as u32 + 1) as usize;
    let filled: usize = lines[..some].iter().map(Vec::len).sum();
    match rng.below(4) {
        0 => filled,
        1 => filled.saturating_sub(1),
        _ => rng.pick(&[0, 5, 30, 60, 200, 1_553, 5_000]) + rng.below(40) as usize,
    }
}

/// Whether the listing gives these lines, in pieces as long as buffers of random sizes allow, and 28 for a buffer too small.
pub fn same_pieces(rng: &mut Rng, listing: &Listing, lines: &[Vec<u8>]) -> bool {
    let mut left = listing.clone();
    let mut rest = lines;
    loop {
        let size = size(rng, rest);
        let (mut count, mut length) = (0, 0);
        while count < rest.len() && length + rest[count].len() <= size {
            length += rest[count].len();
            count += 1;
        }
        let mut out = vec![b'?'; size];
        let refused = match left.next_into(&mut out) {
            Ok(piece) if piece != rest[..count].concat() => return false,
            Ok(_) => false,
            Err(refusal) if refusal.number != 28 => return false,
            Err(_) => true,
        };
        let untouched = out[length..].iter().all(|&byte| byte == b'?');
        if refused != (count == 0 && !rest.is_empty()) || (refused && !untouched) {
            return false;
        }
        if rest.is_empty() {
            return listing.clone().whole() == lines.concat();
        }
        rest = &rest[count..];
    }
}
