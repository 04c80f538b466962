//! For the plain Rust programs of two benchmarks, which take this file in: the fields of a protobuf message, one after the other.

pub struct Fields<'a> {
    pub rest: &'a [u8],
}

pub enum Value<'a> {
    Number(u64),
    Bytes(&'a [u8]),
}

fn varint(rest: &mut &[u8]) -> Option<u64> {
    let mut n = 0;
    for k in 0..10 {
        let (first, others) = rest.split_first()?;
        *rest = others;
        n |= ((first & 127) as u64) << (7 * k);
        if *first < 128 {
            return Some(n);
        }
    }
    None
}

impl<'a> Iterator for Fields<'a> {
    type Item = (u64, Value<'a>);
    fn next(&mut self) -> Option<Self::Item> {
        if self.rest.is_empty() {
            return None;
        }
        let key = varint(&mut self.rest)?;
        let value = if key & 7 == 0 {
            Value::Number(varint(&mut self.rest)?)
        } else {
            let len = varint(&mut self.rest)? as usize;
            let (bytes, rest) = self.rest.split_at_checked(len)?;
            self.rest = rest;
            Value::Bytes(bytes)
        };
        Some((key >> 3, value))
    }
}
