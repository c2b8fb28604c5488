//! Plain Rust to measure the proved cipher against: AES-128 by four tables of words, without proofs.
//!
//! Encrypts COUNT blocks one after the other under one key, each block the cipher of the one before,
//! and prints the last one in hexadecimal.
//!
//!     rustc -O -C target-cpu=x86-64-v2 -o aes_tables aes_tables.rs && ./aes_tables COUNT

mod aes;

use aes::Key;

fn main() {
    let count: u64 = std::env::args()
        .nth(1)
        .and_then(|word| word.parse().ok())
        .expect("usage: aes_tables COUNT");
    let key = Key::new(std::array::from_fn(|i| i as u8));
    let mut block = std::array::from_fn(|i| 0x11 * i as u8);
    for _ in 0..count {
        key.encrypt_block(&mut block);
    }
    for octet in block {
        print!("{octet:02x}");
    }
    println!();
}
