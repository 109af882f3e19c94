//! A line of the call file: `chromosome position ref alt`.

/// A call as written; nothing but its shape has been judged.
pub struct Call {
    pub chromosome: u16,
    pub position: u64,
    pub reference: u8,
    pub alt: u8,
}

/// A decimal number of 1 to `most` digits without leading zeros.
fn number(digits: &[u8], most: usize) -> Option<u64> {
    let plain = digits.iter().all(u8::is_ascii_digit);
    let leading_zero = digits.len() > 1 && digits[0] == b'0';
    if digits.is_empty() || digits.len() > most || !plain || leading_zero {
        return None;
    }
    std::str::from_utf8(digits).ok()?.parse().ok()
}

/// The call of one line, without its newline; `None` is refusal 26.
pub fn read(line: &[u8]) -> Option<Call> {
    let fields: Vec<&[u8]> = line.split(|&byte| byte == b' ').collect();
    let [chromosome, position, &[reference], &[alt]] = fields[..] else {
        return None;
    };
    Some(Call {
        chromosome: number(chromosome, 3)? as u16,
        position: number(position, 19)?,
        reference,
        alt,
    })
}

/// The lines of a call file, each with whether it has its newline.
pub fn lines(calls: &[u8]) -> impl Iterator<Item = (&[u8], bool)> {
    calls
        .split_inclusive(|&byte| byte == b'\n')
        .map(|line| match line.strip_suffix(b"\n") {
            Some(line) => (line, true),
            None => (line, false),
        })
}
