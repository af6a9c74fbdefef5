//! The same sums by a loop over 16-bit words in plain Rust. The words are the length of a body and how many bodies; it prints the nanoseconds,
//! and the sums added up.
use std::time::Instant;

const STARTS: usize = 8;

#[inline(never)]
fn sum16(octets: &[u8]) -> u16 {
    let words = octets.chunks_exact(2);
    let last: u64 = words.remainder().iter().map(|octet| u64::from(*octet) << 8).sum();
    let mut sum = last + words.map(|word| u64::from(u16::from_be_bytes([word[0], word[1]]))).sum::<u64>();
    while sum > 0xffff {
        sum = (sum >> 16) + (sum & 0xffff);
    }
    !(sum as u16)
}

fn main() {
    let mut words = std::env::args().skip(1);
    let len: usize = words.next().unwrap().parse().unwrap();
    let bodies: usize = words.next().unwrap().parse().unwrap();
    let octets = vec![0xa5u8; len + STARTS];
    let start = Instant::now();
    let mut total = 0u32;
    for index in 0..bodies {
        total = total.wrapping_add(u32::from(sum16(&octets[index % STARTS..][..len])));
    }
    let spent = start.elapsed();
    println!("{} {}", spent.as_nanos(), total);
}
