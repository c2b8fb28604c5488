//! Makes an installation and a recording to measure an audit by: FOLDER/tables and FOLDER/frames.
//!
//! Of 100 records about 80 are accepted, 10 are stale, 5 are damaged and 5 are not secure. There are 16 groups of level `auth`
//! with four senders each; one accepted telegram in five is readable, and half of the APDUs carry more than one value octet.
//! The same SEED makes the same files.
//!
//!     rustc -O -o make_frames make_frames.rs && ./make_frames SEED COUNT FOLDER

mod aes;

use aes::Key;
use std::fmt::Write;
use std::fs;

const GROUPS: u16 = 16;
const SENDERS: u16 = 4;

struct Draws(u64);

impl Draws {
    fn below(&mut self, most: u64) -> u64 {
        self.0 = self
            .0
            .wrapping_mul(6364136223846793005)
            .wrapping_add(1442695040888963407);
        (self.0 >> 33) % most
    }

    fn octet(&mut self) -> u8 {
        self.below(256) as u8
    }
}

fn group_address(group: u16) -> u16 {
    0x0801 + group
}

fn sender_address(group: u16, sender: u16) -> u16 {
    0x1101 + group * SENDERS + sender
}

/// The APDU and the code as the wire has them, under the number of an unbroken count.
fn sealed(key: &Key, number: u64, source: u16, destination: u16, field: u8, apdu: &[u8]) -> Vec<u8> {
    let mut head = number.to_be_bytes()[2..].to_vec();
    head.extend(source.to_be_bytes());
    head.extend(destination.to_be_bytes());
    let (readable, payload) = if field == 0x10 {
        (&[][..], apdu)
    } else {
        (apdu, &[][..])
    };
    let mut text = head.clone();
    text.extend([0, 0x80, 3, 0xf1, 0, payload.len() as u8]);
    text.extend((1 + readable.len() as u16).to_be_bytes());
    text.push(field);
    text.extend(readable);
    text.extend(payload);
    text.resize(text.len().div_ceil(16) * 16, 0);
    let mut mac = [0; 16];
    for block in text.chunks(16) {
        mac.iter_mut().zip(block).for_each(|(m, x)| *m ^= x);
        key.encrypt_block(&mut mac);
    }
    let mut wire = mac[..4].to_vec();
    wire.extend(apdu);
    if field == 0x10 {
        for (place, octet) in wire.iter_mut().enumerate() {
            let mut counter = [0; 16];
            counter[..10].copy_from_slice(&head);
            counter[14] = 1;
            counter[15] = (place / 16) as u8;
            key.encrypt_block(&mut counter);
            *octet ^= counter[place % 16];
        }
    }
    wire.rotate_left(4);
    wire
}

/// An L_Data.ind frame with these data octets.
fn frame(source: u16, destination: u16, content: &[u8]) -> Vec<u8> {
    let control = if content.len() <= 16 { 0xbc } else { 0x3c };
    let mut octets = vec![0x29, 0, control, 0xe0];
    octets.extend(source.to_be_bytes());
    octets.extend(destination.to_be_bytes());
    octets.push(content.len() as u8 - 1);
    octets.extend(content);
    octets
}

fn main() {
    let words: Vec<String> = std::env::args().skip(1).collect();
    let [seed, count, folder] = &words[..] else {
        panic!("usage: make_frames SEED COUNT FOLDER");
    };
    let mut draws = Draws(seed.parse().expect("a number"));
    let mut tables = String::new();
    let mut keys = Vec::new();
    for group in 0..GROUPS {
        let key: [u8; 16] = std::array::from_fn(|_| draws.octet());
        let digits: String = key.iter().map(|x| format!("{x:02x}")).collect();
        writeln!(tables, "group {} {digits} auth", group_address(group)).unwrap();
        keys.push(Key::new(key));
    }
    for group in 0..GROUPS {
        for sender in 0..SENDERS {
            let device = sender_address(group, sender) & 0xff;
            writeln!(tables, "role {} 1.1.{device} command", group_address(group)).unwrap();
        }
    }
    let mut numbers = [[0u64; SENDERS as usize]; GROUPS as usize];
    let mut frames = String::new();
    for _ in 0..count.parse::<u32>().expect("a number") {
        let (group, sender) = (draws.below(GROUPS.into()) as u16, draws.below(SENDERS.into()) as u16);
        let (source, destination) = (sender_address(group, sender), group_address(group));
        let mut apdu = vec![0, 0x80 | draws.below(64) as u8];
        if draws.below(2) == 0 {
            apdu.extend((0..1 + draws.below(14)).map(|_| draws.octet()));
        }
        let kind = draws.below(100);
        let number = &mut numbers[group as usize][sender as usize];
        let octets = if kind < 5 {
            frame(source, destination, &apdu)
        } else {
            let stale = kind < 15 && *number > 0;
            if !stale {
                *number += 1;
            }
            let field = if draws.below(5) == 0 { 0 } else { 0x10 };
            let mut content = vec![3, 0xf1, field];
            content.extend(&number.to_be_bytes()[2..]);
            content.extend(sealed(&keys[group as usize], *number, source, destination, field, &apdu));
            if kind >= 95 {
                *content.last_mut().expect("octets") ^= 1;
            }
            frame(source, destination, &content)
        };
        octets.iter().for_each(|x| write!(frames, "{x:02x}").unwrap());
        frames.push('\n');
    }
    fs::create_dir_all(folder).expect("a folder");
    fs::write(format!("{folder}/tables"), tables).expect("tables");
    fs::write(format!("{folder}/frames"), frames).expect("frames");
}
