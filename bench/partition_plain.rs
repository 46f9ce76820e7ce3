//! The codec of partition files as plain loops in Rust, with the same checks, in both formats, to measure beside.
use std::time::Instant;

#[derive(Clone, Copy)]
struct Born {
    src: u32,
    label: u16,
    dst: u32,
    birth: u64,
}

struct Expect {
    lo: u32,
    hi: u32,
    vertices: u32,
    round: u64,
    named: u16,
}

fn number<const N: usize>(bytes: &[u8], at: usize) -> Option<[u8; N]> {
    bytes.get(at..at + N)?.try_into().ok()
}

#[inline(never)]
fn decode_first(bytes: &[u8], expect: &Expect) -> Option<Vec<Born>> {
    if number(bytes, 0)? != *b"GSP1"
        || u32::from_le_bytes(number(bytes, 4)?) != expect.lo
        || u32::from_le_bytes(number(bytes, 8)?) != expect.hi
    {
        return None;
    }
    let mut at = 12;
    let mut edges = Vec::with_capacity(bytes.len() / 14);
    for src in expect.lo..expect.hi {
        let count = u64::from_le_bytes(number(bytes, at)?);
        at += 8;
        let mut before = None;
        for _ in 0..count {
            let label = u16::from_le_bytes(number(bytes, at)?);
            let dst = u32::from_le_bytes(number(bytes, at + 2)?);
            let birth = u64::from_le_bytes(number(bytes, at + 6)?);
            if label >= expect.named || dst >= expect.vertices || before >= Some((label, dst)) || birth >= expect.round {
                return None;
            }
            before = Some((label, dst));
            edges.push(Born { src, label, dst, birth });
            at += 14;
        }
    }
    (at == bytes.len()).then_some(edges)
}

#[inline(never)]
fn encode_first(edges: &[Born], expect: &Expect) -> Vec<u8> {
    let mut bytes = Vec::with_capacity(12 + 8 * (expect.hi - expect.lo) as usize + 14 * edges.len());
    bytes.extend_from_slice(b"GSP1");
    bytes.extend_from_slice(&expect.lo.to_le_bytes());
    bytes.extend_from_slice(&expect.hi.to_le_bytes());
    let mut rest = edges;
    for src in expect.lo..expect.hi {
        let count = rest.iter().take_while(|born| born.src == src).count();
        bytes.extend_from_slice(&(count as u64).to_le_bytes());
        for born in &rest[..count] {
            bytes.extend_from_slice(&born.label.to_le_bytes());
            bytes.extend_from_slice(&born.dst.to_le_bytes());
            bytes.extend_from_slice(&born.birth.to_le_bytes());
        }
        rest = &rest[count..];
    }
    bytes
}

/// The group number at the place, and the place behind it.
#[inline(always)]
fn group(bytes: &[u8], at: usize) -> Option<(u64, usize)> {
    let first = *bytes.get(at)?;
    if first < 128 {
        return Some((u64::from(first), at + 1));
    }
    let mut number = u64::from(first - 128);
    let mut shift = 7;
    let mut at = at + 1;
    loop {
        let byte = *bytes.get(at)?;
        if byte == 0 || (shift == 63 && byte > 1) {
            return None;
        }
        number |= u64::from(byte & 127) << shift;
        at += 1;
        if byte < 128 {
            return Some((number, at));
        }
        shift += 7;
    }
}

#[inline(never)]
fn decode(bytes: &[u8], expect: &Expect) -> Option<Vec<Born>> {
    if number(bytes, 0)? != *b"GSP2"
        || u32::from_le_bytes(number(bytes, 4)?) != expect.lo
        || u32::from_le_bytes(number(bytes, 8)?) != expect.hi
    {
        return None;
    }
    let rows = (expect.hi - expect.lo) as usize;
    let last_bytes = bytes[12..].iter().filter(|byte| **byte < 128).count();
    let mut edges = Vec::with_capacity(last_bytes.saturating_sub(rows) / 3);
    let mut at = 12;
    for src in expect.lo..expect.hi {
        let (count, behind) = group(bytes, at)?;
        at = behind;
        let mut before: Option<(u64, u64)> = None;
        for _ in 0..count {
            let (label, behind) = group(bytes, at)?;
            let (dst, behind) = group(bytes, behind)?;
            let (birth, behind) = group(bytes, behind)?;
            let (label, dst) = match before {
                None => (label, dst),
                Some((last, dst_before)) if label == 0 => (last, dst.checked_add(dst_before + 1)?),
                Some((last, _)) => (label.checked_add(last)?, dst),
            };
            if label >= u64::from(expect.named) || dst >= u64::from(expect.vertices) || birth >= expect.round {
                return None;
            }
            before = Some((label, dst));
            edges.push(Born { src, label: label as u16, dst: dst as u32, birth });
            at = behind;
        }
    }
    (at == bytes.len()).then_some(edges)
}

#[inline(always)]
fn put_group(bytes: &mut Vec<u8>, number: u64) {
    if number < 128 {
        return bytes.push(number as u8);
    }
    if number < 16_384 {
        return bytes.extend_from_slice(&[128 | number as u8, (number >> 7) as u8]);
    }
    if number < 2_097_152 {
        return bytes.extend_from_slice(&[128 | number as u8, 128 | (number >> 7) as u8, (number >> 14) as u8]);
    }
    let mut rest = number;
    while rest >= 128 {
        bytes.push(128 | rest as u8);
        rest >>= 7;
    }
    bytes.push(rest as u8);
}

/// The numbers that tell an edge behind the one before it in its row.
#[inline(always)]
fn numbers(before: Option<&Born>, born: &Born) -> (u64, u64) {
    match before {
        Some(last) if last.label == born.label => (0, u64::from(born.dst) - u64::from(last.dst) - 1),
        Some(last) => (u64::from(born.label - last.label), u64::from(born.dst)),
        None => (u64::from(born.label), u64::from(born.dst)),
    }
}

#[inline(never)]
fn encode(edges: &[Born], expect: &Expect) -> Vec<u8> {
    // Room for the most that the edges can have, as in the codec: 18 bytes each.
    let len = 12 + (expect.hi - expect.lo) as usize + edges.len() / 64 + 18 * edges.len();
    let mut bytes = Vec::with_capacity(len);
    bytes.extend_from_slice(b"GSP2");
    bytes.extend_from_slice(&expect.lo.to_le_bytes());
    bytes.extend_from_slice(&expect.hi.to_le_bytes());
    let mut rest = edges;
    for src in expect.lo..expect.hi {
        let count = rest.iter().take_while(|born| born.src == src).count();
        put_group(&mut bytes, count as u64);
        let mut before = None;
        for born in &rest[..count] {
            let (label, dst) = numbers(before, born);
            put_group(&mut bytes, label);
            put_group(&mut bytes, dst);
            put_group(&mut bytes, born.birth);
            before = Some(born);
        }
        rest = &rest[count..];
    }
    bytes
}

fn main() {
    let expect = Expect { lo: 0, hi: 100_000, vertices: 100_000, round: 7, named: 10 };
    let edges: Vec<Born> = (0..expect.hi)
        .flat_map(|src| (0..10).map(move |label| Born { src, label, dst: src.wrapping_mul(7919) % 100_000, birth: 5 }))
        .collect();
    type Encode = fn(&[Born], &Expect) -> Vec<u8>;
    type Decode = fn(&[u8], &Expect) -> Option<Vec<Born>>;
    let formats: [(&str, Encode, Decode); 2] = [("first", encode_first, decode_first), ("second", encode, decode)];
    for _ in 0..5 {
        for (name, encode, decode) in formats {
            let bytes = encode(&edges, &expect);
            let start = Instant::now();
            let decoded = decode(&bytes, &expect).expect("a partition");
            let decoder = start.elapsed().as_micros();
            let start = Instant::now();
            let again = encode(&decoded, &expect);
            let encoder = start.elapsed().as_micros();
            assert!(again == bytes);
            println!("{name} plain decode {decoder} encode {encoder}");
        }
    }
}
