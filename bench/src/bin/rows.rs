//! Writes rows of parameters to compare: `rows plain N` gives N rows such as drives have, and `rows wild N SEED` gives N
//! rows of odd spellings and odd bytes.
use std::io::Write;

struct Random(u64);

impl Random {
    fn below(&mut self, n: u64) -> u64 {
        self.0 ^= self.0 << 13;
        self.0 ^= self.0 >> 7;
        self.0 ^= self.0 << 17;
        (self.0 >> 11) % n
    }

    fn bytes(&mut self, most: u64, from: &[u8]) -> Vec<u8> {
        let n = self.below(most + 1);
        (0..n).map(|_| from[self.below(from.len() as u64) as usize]).collect()
    }

    fn numeral(&mut self) -> Vec<u8> {
        let mut s = self.bytes(2, b"  \r");
        s.extend_from_slice([&b""[..], b"+", b"-"][self.below(3) as usize]);
        let mut digits = self.bytes(20, b"0001234567899");
        if self.below(2) == 0 {
            let at = self.below(digits.len() as u64 + 1) as usize;
            digits.insert(at, b'.');
        }
        s.extend(digits);
        s.extend(self.bytes(2, b" \r"));
        s
    }
}

fn plain(out: &mut Vec<u8>, i: u64, r: &mut Random) -> std::io::Result<()> {
    match i % 4 {
        0 => {
            let (a, b) = (r.below(1_000_000), r.below(10_000));
            writeln!(out, "decimal\t {a}.{b}\t+{a}.{b}00")
        }
        1 => writeln!(out, "token\t  drive  axis {i}\tdrive axis   {i} "),
        2 => writeln!(out, "string\tnominal speed {i}\tnominal speed {}", i + r.below(3)),
        _ => writeln!(out, "decimal\t{i:09}.250\t{i}.25"),
    }
}

fn wild(out: &mut Vec<u8>, r: &mut Random) {
    let row = match r.below(5) {
        0 | 1 => {
            let left = r.numeral();
            let right = if r.below(2) == 0 { r.numeral() } else { [&left[..], b"0"].concat() };
            [&b"decimal\t"[..], &left, b"\t", &right].concat()
        }
        2 => {
            let left = r.bytes(8, b"ab \r");
            let right = if r.below(2) == 0 { r.bytes(8, b"ab \r") } else { [b" ", &left[..]].concat() };
            [&b"token\t"[..], &left, b"\t", &right].concat()
        }
        3 => [&b"string\t"[..], &r.bytes(2, b"a "), b"\t", &r.bytes(2, b"a ")].concat(),
        _ => r.bytes(30, b"decimal\t\t01.+-\0\xff\r"),
    };
    out.extend(row);
    out.push(b'\n');
}

fn main() -> std::io::Result<()> {
    let args: Vec<String> = std::env::args().collect();
    let number = |i: usize| args.get(i).and_then(|s| s.parse().ok()).unwrap_or(1);
    let mut r = Random(0x9e37_79b9_7f4a_7c15 ^ number(3));
    let mut out = Vec::new();
    for i in 0..number(2) {
        match args.get(1).map(String::as_str) {
            Some("wild") => wild(&mut out, &mut r),
            _ => plain(&mut out, i, &mut r)?,
        }
    }
    std::io::stdout().write_all(&out)
}
