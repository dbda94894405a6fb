//! A PNG file of 8-bit RGB pixels, written with the standard library alone.
use std::io::Write;
use std::path::Path;

/// Writes `rgb`, three bytes a pixel and row by row, as a picture of the given width.
pub fn write(path: &Path, img_w: usize, rgb: &[u8]) -> std::io::Result<()> {
    let img_h = rgb.len() / (3 * img_w);
    let mut header = Vec::new();
    header.extend((img_w as u32).to_be_bytes());
    header.extend((img_h as u32).to_be_bytes());
    header.extend([8, 2, 0, 0, 0]); // eight bits, RGB, and the only packing, filters and order there are
    let mut file = std::fs::File::create(path)?;
    file.write_all(b"\x89PNG\r\n\x1a\n")?;
    for (kind, data) in [
        (b"IHDR", header),
        (b"IDAT", packed(&rows(img_w, rgb), 3 * img_w + 1)),
        (b"IEND", Vec::new()),
    ] {
        file.write_all(&chunk(kind, &data))?;
    }
    Ok(())
}

/// Each row after a 0, the filter that changes nothing.
fn rows(img_w: usize, rgb: &[u8]) -> Vec<u8> {
    rgb.chunks(3 * img_w)
        .flat_map(|row| std::iter::once(&0).chain(row))
        .copied()
        .collect()
}

fn chunk(kind: &[u8; 4], data: &[u8]) -> Vec<u8> {
    let mut named = kind.to_vec();
    named.extend(data);
    let mut whole = (data.len() as u32).to_be_bytes().to_vec();
    whole.extend(&named);
    whole.extend(crc32(&named).to_be_bytes());
    whole
}

fn crc32(bytes: &[u8]) -> u32 {
    !bytes.iter().fold(u32::MAX, |crc, &byte| {
        (0..8).fold(crc ^ u32::from(byte), |c, _| {
            (c >> 1) ^ (0xedb8_8320 & (c & 1).wrapping_neg())
        })
    })
}

fn adler32(bytes: &[u8]) -> u32 {
    let (a, b) = bytes.iter().fold((1, 0), |(a, b), &byte| {
        let a = (a + u32::from(byte)) % 65521;
        (a, (b + a) % 65521)
    });
    b << 16 | a
}

/// A zlib stream: one block of deflate's fixed codes, which repeats the pixel before or the row above where they
/// are the same again.
fn packed(bytes: &[u8], stride: usize) -> Vec<u8> {
    let mut bits = Bits::default();
    bits.push(1, 1); // the last block
    bits.push(1, 2); // of fixed codes
    let mut at = 0;
    while at < bytes.len() {
        let (length, distance) = [3, stride]
            .map(|distance| (repeats(bytes, at, distance), distance))
            .into_iter()
            .max()
            .expect("two distances");
        if length < 3 {
            bits.symbol(bytes[at].into());
            at += 1;
        } else {
            bits.repeat(length, distance);
            at += length;
        }
    }
    bits.symbol(256); // the end
    let mut stream = vec![0x78, 0x01];
    stream.extend(bits.bytes);
    stream.extend(adler32(bytes).to_be_bytes());
    stream
}

/// How many bytes from `at` on are those that stand `distance` earlier; 258 at most.
fn repeats(bytes: &[u8], at: usize, distance: usize) -> usize {
    if at < distance {
        return 0;
    }
    let same = bytes[at..].iter().zip(&bytes[at - distance..]);
    same.take(258).take_while(|(a, b)| a == b).count()
}

/// Bits in the order of deflate: each byte is filled from its lowest bit on.
#[derive(Default)]
struct Bits {
    bytes: Vec<u8>,
    used: u32,
}

impl Bits {
    /// The lowest `count` bits of `value`, lowest first.
    fn push(&mut self, value: u32, count: u32) {
        for i in 0..count {
            if self.used % 8 == 0 {
                self.bytes.push(0);
            }
            let last = self.bytes.last_mut().expect("a byte was begun");
            *last |= ((value >> i & 1) as u8) << (self.used % 8);
            self.used += 1;
        }
    }

    /// A code goes highest bit first.
    fn code(&mut self, code: u32, count: u32) {
        self.push(code.reverse_bits() >> (32 - count), count);
    }

    /// A byte, the end (256) or a length's class (257 and more), by the fixed codes (RFC 1951, 3.2.6).
    fn symbol(&mut self, symbol: u32) {
        match symbol {
            0..=143 => self.code(0x30 + symbol, 8),
            144..=255 => self.code(0x190 + symbol - 144, 9),
            256..=279 => self.code(symbol - 256, 7),
            _ => self.code(0xc0 + symbol - 280, 8),
        }
    }

    /// A length and a distance, each a class and the bits left over (RFC 1951, 3.2.5).
    fn repeat(&mut self, length: usize, distance: usize) {
        if length == 258 {
            self.symbol(285);
        } else {
            let (class, rest, count) = classed(length as u32 - 3, 3);
            self.symbol(257 + class);
            self.push(rest, count);
        }
        let (class, rest, count) = classed(distance as u32 - 1, 2);
        self.code(class, 5);
        self.push(rest, count);
    }
}

/// The class of a number, the bits left over and their count: a class is told by its highest `digits` bits.
fn classed(number: u32, digits: u32) -> (u32, u32, u32) {
    let size = u32::BITS - number.leading_zeros();
    if size <= digits {
        return (number, 0, 0);
    }
    let count = size - digits;
    let class = (count << (digits - 1)) + (number >> count);
    (class, number & ((1 << count) - 1), count)
}

#[cfg(test)]
mod tests {
    #[test]
    fn checksums_of_the_standards() {
        assert_eq!(super::crc32(b"IEND"), 0xae42_6082);
        assert_eq!(super::crc32(b"123456789"), 0xcbf4_3926);
        assert_eq!(super::adler32(b"Wikipedia"), 0x11e6_0398);
    }

    /// The table of RFC 1951: length 3 is class 0, 10 is 7, 11 is 8 with one bit, 257 is 27 with five.
    #[test]
    fn classes_of_lengths_and_distances() {
        assert_eq!(super::classed(0, 3), (0, 0, 0));
        assert_eq!(super::classed(10 - 3, 3), (7, 0, 0));
        assert_eq!(super::classed(12 - 3, 3), (8, 1, 1));
        assert_eq!(super::classed(257 - 3, 3), (27, 30, 5));
        assert_eq!(super::classed(4 - 1, 2), (3, 0, 0));
        assert_eq!(super::classed(6 - 1, 2), (4, 1, 1));
        assert_eq!(super::classed(32768 - 1, 2), (29, 8191, 13));
    }
}
