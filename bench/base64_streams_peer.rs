//! The peer of base64_streams_ours.txt over the crate base64ct of Debian, with the same input, parts and output.

use base64ct::{Base64, Decoder, Encoder, Encoding, LineEnding};
use std::hint::black_box;
use std::time::Instant;

const SIZE: usize = 1_000_000;
const TURNS: usize = 40;
const PART: usize = 4_096;

fn input() -> Vec<u8> {
    let mut x = 1u8;
    (0..SIZE)
        .map(|_| {
            x = x.wrapping_mul(5).wrapping_add(77);
            x
        })
        .collect()
}

fn encoded(src: &[u8], out: &mut [u8], width: usize) -> usize {
    if width == 0 {
        return Base64::encode(src, out).unwrap().len();
    }
    let mut encoder = Encoder::<Base64>::new_wrapped(out, width, LineEnding::LF).unwrap();
    for part in src.chunks(PART) {
        encoder.encode(part).unwrap();
    }
    encoder.finish().unwrap().len()
}

fn decoded(text: &[u8], back: &mut [u8], width: usize) -> usize {
    if width == 0 {
        return Base64::decode(text, back).unwrap().len();
    }
    let mut decoder = Decoder::<Base64>::new_wrapped(text, width).unwrap();
    let mut read = 0;
    for part in back.chunks_mut(PART) {
        let n = part.len().min(decoder.remaining_len());
        read += decoder.decode(&mut part[..n]).unwrap().len();
    }
    read
}

fn measure(width: usize) {
    let src = input();
    let mut out = vec![0u8; 2 * SIZE];
    let mut back = vec![0u8; SIZE];
    let (mut length, mut again) = (0, 0);
    let start = Instant::now();
    for _ in 0..TURNS {
        length = encoded(black_box(&src), black_box(&mut out), width);
    }
    let encoding = start.elapsed();
    let start = Instant::now();
    for _ in 0..TURNS {
        again = decoded(black_box(&out[..length]), black_box(&mut back), width);
    }
    let decoding = start.elapsed();
    assert!(back == src);
    println!("{width} {length} {again} {} {}", encoding.as_micros(), decoding.as_micros());
}

fn main() {
    measure(64);
    measure(76);
    measure(0);
}
