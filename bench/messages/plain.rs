// The readings of `crates/pac_bench/src/messages.rt` and `crates/stream_cases/src/streams.rt` in a few lines of plain
// Rust, and the calls of `crates/address_cases/src/repeated.rt` by Rust's std: the same checks, the same answers.
use std::fmt::Write;
use std::net::Ipv6Addr;

fn u16_at(m: &[u8], at: usize) -> Option<usize> {
    Some(usize::from(*m.get(at)?) * 256 + usize::from(*m.get(at + 1)?))
}

/// The next label of a name, empty at its end. `piece` is where the present piece begins.
fn label<'a>(m: &'a [u8], piece: &mut usize, at: &mut usize) -> Option<&'a [u8]> {
    loop {
        match usize::from(*m.get(*at)?) {
            n @ 0..=63 => {
                let label = m.get(*at + 1..*at + 1 + n)?;
                *at += 1 + n;
                return Some(label);
            }
            n @ 192.. => {
                let target = (n - 192) * 256 + usize::from(*m.get(*at + 1)?);
                if target >= *piece {
                    return None;
                }
                (*piece, *at) = (target, target);
            }
            _ => return None,
        }
    }
}

/// The offset behind a name.
fn skip(m: &[u8], start: usize) -> Option<usize> {
    let (mut piece, mut at, mut length) = (start, start, 0);
    loop {
        let n = label(m, &mut piece, &mut at)?.len();
        length += n + 1;
        if length > 255 {
            return None;
        }
        if n == 0 {
            break;
        }
    }
    let mut end = start;
    loop {
        match usize::from(m[end]) {
            0 => return Some(end + 1),
            n if n < 64 => end += 1 + n,
            _ => return Some(end + 2),
        }
    }
}

fn same(m: &[u8], a: usize, b: usize) -> bool {
    let (mut pa, mut a, mut pb, mut b) = (a, a, b, b);
    loop {
        match (label(m, &mut pa, &mut a), label(m, &mut pb, &mut b)) {
            (Some(x), Some(y)) if x.eq_ignore_ascii_case(y) => {
                if x.is_empty() {
                    return true;
                }
            }
            _ => return false,
        }
    }
}

fn spells(m: &[u8], at: usize, name: &str) -> bool {
    let (mut piece, mut at) = (at, at);
    name.split('.').chain([""]).all(|want| {
        label(m, &mut piece, &mut at).is_some_and(|l| l.eq_ignore_ascii_case(want.as_bytes()))
    })
}

struct Record {
    name: usize,
    kind: usize,
    data: usize,
}

fn read_reply(m: &[u8], id: u16, name: &str) -> Option<Option<u32>> {
    let (flags, rcode) = (u16_at(m, 2)?, u16_at(m, 2)? % 16);
    if u16_at(m, 0)? != usize::from(id) || flags & 0xfa00 != 0x8000 || u16_at(m, 4)? != 1 || m.len() < 12 {
        return None;
    }
    if rcode != 0 && rcode != 3 || !spells(m, 12, name) {
        return None;
    }
    let mut at = skip(m, 12)?;
    if u16_at(m, at)? != 1 || u16_at(m, at + 2)? != 1 {
        return None;
    }
    if rcode == 3 {
        return Some(None);
    }
    at += 4;
    let mut records = Vec::new();
    for _ in 0..u16_at(m, 6)? {
        let fields = skip(m, at)?;
        let (kind, class, length) = (u16_at(m, fields)?, u16_at(m, fields + 2)?, u16_at(m, fields + 8)?);
        let data = fields + 10;
        m.get(data..data + length)?;
        if class == 1 && kind == 1 && length != 4 || class == 1 && kind == 5 && skip(m, data)? != data + length {
            return None;
        }
        if class == 1 {
            records.push(Record { name: at, kind, data });
        }
        at = data + length;
    }
    let mut present = 12;
    for _ in 0..16 {
        match records.iter().find(|r| r.kind == 5 && same(m, present, r.name)) {
            Some(alias) => present = alias.data,
            None => break,
        }
    }
    let address = records.iter().find(|r| r.kind == 1 && same(m, present, r.name));
    Some(address.map(|r| u32::from_be_bytes(m[r.data..r.data + 4].try_into().unwrap())))
}

fn read_often(mut m: Vec<u8>, name: &str, count: u32) -> u64 {
    let mut sum = 0u64;
    for turn in 0..count {
        let id = (turn % 256) as u16;
        m[1] = id as u8;
        if let Some(Some(address)) = read_reply(&m, id, name) {
            sum = sum.wrapping_add(u64::from(address));
        }
    }
    sum
}

fn plain() -> Vec<u8> {
    let mut m = b"\0\0\x81\x80\0\x01\0\x01\0\0\0\0\x07example\x03com\0\0\x01\0\x01".to_vec();
    m.extend(b"\xc0\x0c\0\x01\0\x01\0\0\0\x3c\0\x04\x5d\xb8\xd8\x22");
    m
}

fn chain() -> Vec<u8> {
    let mut m = b"\0\0\x81\x80\0\x01\0\x11\0\0\0\0\x01a\0\0\x01\0\x01".to_vec();
    m.extend(b"\x01q\0\0\x01\0\x01\0\0\0\x3c\0\x04\x0a\0\0\x09");
    for target in (b'b'..=b'q').rev() {
        m.extend([1, target - 1, 0, 0, 5, 0, 1, 0, 0, 0, 60, 0, 3, 1, target, 0]);
    }
    m
}

/// The frame of a stream that is read, in pieces.
struct Reader {
    octets: Vec<u8>,
}

impl Reader {
    fn missing(&self) -> usize {
        match self.octets[..] {
            [high, low, ..] => 2 + usize::from(high) * 256 + usize::from(low) - self.octets.len(),
            _ => 2 - self.octets.len(),
        }
    }

    fn wanted(&self) -> usize {
        match self.missing() {
            0 => 2,
            missing => missing.min(512),
        }
    }

    fn feed(&mut self, piece: &[u8]) {
        if self.missing() == 0 {
            self.octets.clear();
        }
        self.octets.extend_from_slice(piece);
    }

    fn message(&self) -> Option<&[u8]> {
        (self.missing() == 0).then(|| &self.octets[2..])
    }
}

/// The octets of all messages of a frame that comes so often, in pieces of so many octets.
fn read_stream(count: u32, length: u16, piece: usize) -> u64 {
    let mut stream = vec![b'A'; 2 + usize::from(length)];
    stream[..2].copy_from_slice(&length.to_be_bytes());
    let (mut reader, mut octets) = (Reader { octets: Vec::with_capacity(65_537) }, 0);
    for _ in 0..count {
        for mut left in stream.chunks(piece) {
            while !left.is_empty() {
                let (piece, rest) = left.split_at(reader.wanted().min(left.len()));
                reader.feed(piece);
                octets += reader.message().map_or(0, |message| message.len() as u64);
                left = rest;
            }
        }
    }
    octets
}

fn with_a_digit(front: &str) -> Vec<String> {
    (0..16).map(|digit| format!("{front}{digit:x}")).collect()
}

fn sum_read(count: u32, front: &str) -> u64 {
    let texts = with_a_digit(front);
    let addresses = texts.iter().cycle().take(count as usize).map(|text| text.parse().unwrap_or(Ipv6Addr::UNSPECIFIED));
    addresses.map(|address| u64::from(address.octets()[15] % 16)).sum()
}

fn length_written(count: u32, first: &str) -> u64 {
    let (first, mut text) = (u128::from_str_radix(first, 16).unwrap(), String::with_capacity(39));
    let mut sum = 0;
    for turn in 0..count {
        text.clear();
        write!(text, "{}", Ipv6Addr::from(first.wrapping_add(u128::from(turn)))).unwrap();
        sum += text.len() as u64;
    }
    sum
}

fn is_within(address: &str, prefix: &str) -> Option<bool> {
    let address = u128::from(address.parse::<Ipv6Addr>().ok()?);
    let (first, bits) = prefix.split_once('/')?;
    let (first, bits) = (u128::from(first.parse::<Ipv6Addr>().ok()?), bits.parse::<u32>().ok()?);
    let different = address ^ first;
    Some(bits <= 128 && different.checked_shr(128 - bits).unwrap_or(0) == 0)
}

fn count_within(count: u32, front: &str, prefix: &str) -> u64 {
    let texts = with_a_digit(front);
    texts.iter().cycle().take(count as usize).filter(|text| is_within(text, prefix) == Some(true)).count() as u64
}

fn main() {
    let words: Vec<String> = std::env::args().collect();
    let count = words[2].parse().unwrap();
    let sum = match words[1].as_str() {
        "plain" => read_often(plain(), "example.com", count),
        "read" => sum_read(count, &words[3]),
        "write" => length_written(count, &words[3]),
        "compare" => count_within(count, &words[3], &words[4]),
        "stream" => read_stream(count, words[3].parse().unwrap(), words[4].parse().unwrap()),
        _ => read_often(chain(), "a", count),
    };
    println!("{sum}");
}
