//! The peer of base64_ours.txt over the crate base64ct of Debian, with the same input, turns and output.

use base64ct::{Base64, Base64Bcrypt, Base64Crypt, Encoding};
use std::hint::black_box;
use std::time::Instant;

const SIZE: usize = 65536;
const TURNS: usize = 200;

fn input() -> Vec<u8> {
    let mut x = 1u8;
    (0..SIZE)
        .map(|_| {
            x = x.wrapping_mul(5).wrapping_add(77);
            x
        })
        .collect()
}

fn measure<E: Encoding>(name: &str) {
    let src = input();
    let mut out = vec![0u8; 2 * SIZE];
    let mut back = vec![0u8; SIZE];
    let (mut length, mut again) = (0, 0);
    let start = Instant::now();
    for _ in 0..TURNS {
        length = E::encode(black_box(&src), black_box(&mut out)).unwrap().len();
    }
    let encoding = start.elapsed();
    let start = Instant::now();
    for _ in 0..TURNS {
        again = E::decode(black_box(&out[..length]), black_box(&mut back)).unwrap().len();
    }
    let decoding = start.elapsed();
    assert!(back == src);
    println!("{name} {length} {again} {} {}", encoding.as_micros(), decoding.as_micros());
}

fn main() {
    measure::<Base64>("standard");
    measure::<Base64Bcrypt>("bcrypt");
    measure::<Base64Crypt>("crypt");
}
