//! AES-128 enciphering by four tables of words, in plain Rust without proofs.

const SUBSTITUTED: [u8; 256] = substituted();
const MIXED: [[u32; 256]; 4] = mixed();

const fn double(x: u8) -> u8 {
    (x << 1) ^ if x & 0x80 != 0 { 0x1b } else { 0 }
}

// Powers of 3 run through all octets but 0, and powers of its inverse backwards.
const fn substituted() -> [u8; 256] {
    let mut table = [0x63; 256];
    let (mut power, mut inverse) = (1u8, 1u8);
    loop {
        power ^= double(power);
        inverse ^= inverse << 1;
        inverse ^= inverse << 2;
        inverse ^= inverse << 4;
        if inverse & 0x80 != 0 {
            inverse ^= 0x09;
        }
        table[power as usize] = inverse
            ^ inverse.rotate_left(1)
            ^ inverse.rotate_left(2)
            ^ inverse.rotate_left(3)
            ^ inverse.rotate_left(4)
            ^ 0x63;
        if power == 1 {
            return table;
        }
    }
}

const fn mixed() -> [[u32; 256]; 4] {
    let mut tables = [[0; 256]; 4];
    let mut x = 0;
    while x < 256 {
        let s = SUBSTITUTED[x];
        let column = u32::from_be_bytes([double(s), s, s, double(s) ^ s]);
        let mut row = 0;
        while row < 4 {
            tables[row][x] = column.rotate_right(8 * row as u32);
            row += 1;
        }
        x += 1;
    }
    tables
}

static S: [u8; 256] = SUBSTITUTED;
static T: [[u32; 256]; 4] = MIXED;

pub struct Key {
    round_keys: [[u32; 4]; 11],
}

impl Key {
    pub fn new(key: [u8; 16]) -> Key {
        let mut round_keys = [load(&key); 11];
        let mut constant = 1;
        for n in 0..10 {
            let k = round_keys[n];
            let turned = k[3].rotate_left(8).to_be_bytes().map(|x| S[x as usize]);
            let mut last = u32::from_be_bytes(turned) ^ (u32::from(constant) << 24);
            for c in 0..4 {
                last ^= k[c];
                round_keys[n + 1][c] = last;
            }
            constant = double(constant);
        }
        Key { round_keys }
    }

    pub fn encrypt_block(&self, block: &mut [u8; 16]) {
        let mut s = add(load(block), self.round_keys[0]);
        for k in &self.round_keys[1..10] {
            s = add(
                [
                    column(s[0], s[1], s[2], s[3]),
                    column(s[1], s[2], s[3], s[0]),
                    column(s[2], s[3], s[0], s[1]),
                    column(s[3], s[0], s[1], s[2]),
                ],
                *k,
            );
        }
        s = add(
            [
                last_column(s[0], s[1], s[2], s[3]),
                last_column(s[1], s[2], s[3], s[0]),
                last_column(s[2], s[3], s[0], s[1]),
                last_column(s[3], s[0], s[1], s[2]),
            ],
            self.round_keys[10],
        );
        for (octets, word) in block.chunks_exact_mut(4).zip(s) {
            octets.copy_from_slice(&word.to_be_bytes());
        }
    }
}

fn load(block: &[u8; 16]) -> [u32; 4] {
    [0, 4, 8, 12].map(|i| u32::from_be_bytes([block[i], block[i + 1], block[i + 2], block[i + 3]]))
}

#[inline(always)]
fn add(s: [u32; 4], k: [u32; 4]) -> [u32; 4] {
    [s[0] ^ k[0], s[1] ^ k[1], s[2] ^ k[2], s[3] ^ k[3]]
}

#[inline(always)]
fn column(a: u32, b: u32, c: u32, d: u32) -> u32 {
    T[0][(a >> 24) as usize]
        ^ T[1][(b >> 16 & 0xff) as usize]
        ^ T[2][(c >> 8 & 0xff) as usize]
        ^ T[3][(d & 0xff) as usize]
}

#[inline(always)]
fn last_column(a: u32, b: u32, c: u32, d: u32) -> u32 {
    u32::from_be_bytes([
        S[(a >> 24) as usize],
        S[(b >> 16 & 0xff) as usize],
        S[(c >> 8 & 0xff) as usize],
        S[(d & 0xff) as usize],
    ])
}
