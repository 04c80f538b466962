//! The same walk in plain Rust: the fields of a record one after the other.
use std::time::Instant;

fn varint(bytes: &[u8]) -> Option<(u64, &[u8])> {
    let mut value = 0u64;
    for place in 0..10 {
        let byte = *bytes.get(place)?;
        if place < 9 || byte < 2 {
            value |= ((byte & 127) as u64) << (7 * place);
        }
        if byte < 128 {
            return Some((value, &bytes[place + 1..]));
        }
    }
    None
}

fn walk(bytes: &[u8]) -> (u64, u64) {
    let (mut rest, mut count, mut sum) = (bytes, 0u64, 0u64);
    while !rest.is_empty() {
        let Some((key, after)) = varint(rest) else { break };
        let Some((value, after)) = varint(after) else { break };
        rest = if key % 8 == 2 {
            if (after.len() as u64) < value {
                break;
            }
            &after[value as usize..]
        } else {
            after
        };
        count += 1;
        sum = sum.wrapping_add(value);
    }
    (count, sum)
}

fn main() {
    let size = 64usize << 20;
    let mut small = Vec::with_capacity(size);
    while small.len() + 3 <= size {
        small.extend_from_slice(&[8, 172, 2]);
    }
    let mut large = Vec::with_capacity(size);
    while large.len() + 65540 <= size {
        large.extend_from_slice(&[10, 128, 128, 4]);
        large.resize(large.len() + 65536, 7);
    }
    for (name, bytes) in [("small", &small), ("large", &large)] {
        let mut best = f64::MAX;
        let mut told = (0, 0);
        for _ in 0..5 {
            let start = Instant::now();
            told = walk(bytes);
            best = best.min(start.elapsed().as_secs_f64());
        }
        println!("plain {name}: {} fields, sum {}, {:.0} MB/s", told.0, told.1, bytes.len() as f64 / best / 1e6);
    }
}
