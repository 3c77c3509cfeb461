//! The program `params` once more, in plain Rust and without proofs: what its speed is measured against, and what its
//! output is compared with.
use std::io::{Read, Write};

fn is_blank(b: u8) -> bool {
    matches!(b, b' ' | b'\t' | b'\n' | b'\r')
}

fn trim(s: &[u8]) -> &[u8] {
    let start = s.iter().position(|b| !is_blank(*b)).unwrap_or(s.len());
    let end = s.iter().rposition(|b| !is_blank(*b)).map_or(start, |i| i + 1);
    &s[start..end]
}

fn words(s: &[u8]) -> impl Iterator<Item = &[u8]> {
    s.split(|b| is_blank(*b)).filter(|w| !w.is_empty())
}

/// The sign, the digits as a number, and how many of them stand after the point, with no zero at the end.
fn decimal(s: &[u8]) -> Option<(bool, u64, u32)> {
    let s = trim(s);
    let (negative, s) = match s {
        [b'-', rest @ ..] => (true, rest),
        [b'+', rest @ ..] => (false, rest),
        _ => (false, s),
    };
    let (mut digits, mut count, mut fraction) = (0u64, 0, None);
    for b in s {
        match b {
            b'0'..=b'9' if count < 18 => {
                digits = digits * 10 + u64::from(b - b'0');
                count += 1;
                fraction = fraction.map(|n| n + 1);
            }
            b'.' if fraction.is_none() => fraction = Some(0),
            _ => return None,
        }
    }
    if count == 0 {
        return None;
    }
    let mut fraction = fraction.unwrap_or(0);
    while fraction > 0 && digits % 10 == 0 {
        digits /= 10;
        fraction -= 1;
    }
    Some((negative && digits > 0, digits, fraction))
}

fn main() -> std::io::Result<()> {
    let mut file = Vec::new();
    match std::env::args().nth(1) {
        Some(path) => file = std::fs::read(path)?,
        None => {
            std::io::stdin().read_to_end(&mut file)?;
        }
    }
    let mut text = Vec::new();
    let (mut lines, mut same, mut different) = (0, 0, 0);
    for line in file.split_inclusive(|b| *b == b'\n') {
        let line = line.strip_suffix(b"\n").unwrap_or(line);
        lines += 1;
        write!(text, "line {lines}: ")?;
        let fields: Vec<&[u8]> = line.split(|b| *b == b'\t').collect();
        let [name, left, right] = fields[..] else {
            text.extend_from_slice(b"not three fields\n");
            continue;
        };
        let (left_allowed, right_allowed, alike) = match name {
            b"string" => (true, true, left == right),
            b"token" => (true, true, words(left).eq(words(right))),
            b"decimal" => {
                let (x, y) = (decimal(left), decimal(right));
                (x.is_some(), y.is_some(), x.is_some() && x == y)
            }
            _ => {
                text.extend_from_slice(b"no type ");
                text.extend_from_slice(name);
                text.push(b'\n');
                continue;
            }
        };
        let side = |allowed| if allowed { "allowed" } else { "not allowed" };
        text.extend_from_slice(name);
        let likeness = if alike { "same" } else { "different" };
        writeln!(text, ": left {}, right {}, {likeness}", side(left_allowed), side(right_allowed))?;
        if alike {
            same += 1;
        } else {
            different += 1;
        }
    }
    let others = lines - same - different;
    writeln!(text, "{lines} lines: {same} same, {different} different, {others} not compared")?;
    std::io::stdout().write_all(&text)
}
