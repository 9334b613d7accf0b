//! MD5 as the peers of the benches work it out, over a buffer that is made once.

pub type Digest = [u8; 16];

const TURNS: [u32; 16] = [7, 12, 17, 22, 5, 9, 14, 20, 4, 11, 16, 23, 6, 10, 15, 21];

/// MD5 (RFC 1321), with its table of sines.
pub struct Md5 {
    sines: [u32; 64],
    text: Vec<u8>,
}

impl Md5 {
    pub fn new() -> Md5 {
        let sines = std::array::from_fn(|i| ((i as f64 + 1.0).sin().abs() * 4_294_967_296.0) as u32);
        Md5 { sines, text: Vec::new() }
    }

    /// The digest of texts, with a semicolon between each and the next.
    pub fn of<T: AsRef<[u8]>>(&mut self, texts: &[T]) -> Digest {
        self.text.clear();
        for (i, text) in texts.iter().enumerate() {
            if i > 0 {
                self.text.push(b';');
            }
            self.text.extend_from_slice(text.as_ref());
        }
        let bits = 8 * self.text.len() as u64;
        self.text.push(0x80);
        self.text.resize(self.text.len().next_multiple_of(64) + if self.text.len() % 64 > 56 { 64 } else { 0 }, 0);
        let end = self.text.len();
        self.text[end - 8..].copy_from_slice(&bits.to_le_bytes());
        let mut state = [0x67452301, 0xefcdab89, 0x98badcfe, 0x10325476];
        for block in self.text.chunks_exact(64) {
            Md5::step(&self.sines, &mut state, block);
        }
        let mut digest = [0; 16];
        for (bytes, word) in digest.chunks_exact_mut(4).zip(state) {
            bytes.copy_from_slice(&word.to_le_bytes());
        }
        digest
    }

    fn step(sines: &[u32; 64], state: &mut [u32; 4], block: &[u8]) {
        let word = |i: usize| u32::from_le_bytes(block[4 * i..4 * i + 4].try_into().unwrap());
        let [mut a, mut b, mut c, mut d] = *state;
        for i in 0..64 {
            let (mixed, place) = match i / 16 {
                0 => ((b & c) | (!b & d), i),
                1 => ((d & b) | (!d & c), (5 * i + 1) % 16),
                2 => (b ^ c ^ d, (3 * i + 5) % 16),
                _ => (c ^ (b | !d), (7 * i) % 16),
            };
            let sum = a.wrapping_add(mixed).wrapping_add(sines[i]).wrapping_add(word(place));
            (a, d, c) = (d, c, b);
            b = b.wrapping_add(sum.rotate_left(TURNS[i / 16 * 4 + i % 4]));
        }
        for (word, more) in state.iter_mut().zip([a, b, c, d]) {
            *word = word.wrapping_add(more);
        }
    }
}
