// A record with its two sides exchanged, and the smaller of the two in byte order.

// The body of the first field in the second, and that of the second in the first; the bytes are those of a record.
pub fn exchanged(record: &[u8]) -> Vec<u8> {
    let first = 3 + u16::from_be_bytes([record[1], record[2]]) as usize;
    let (b, a) = record.split_at(first);
    [&[1], &a[1..], &[2], &b[1..]].concat()
}

pub fn smaller(record: &[u8]) -> Vec<u8> {
    exchanged(record).min(record.to_vec())
}
