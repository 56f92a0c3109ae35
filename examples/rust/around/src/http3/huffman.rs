//! The Huffman code of header fields (RFC 7541, section 5.2 and appendix B).

/// The bits of each symbol's code, the last of which is that of the end. The code is canonical:
/// shorter ones come first, and equally long ones in the order of symbols.
#[rustfmt::skip]
const LENGTHS: [u8; 257] = [
    13, 23, 28, 28, 28, 28, 28, 28, 28, 24, 30, 28, 28, 30, 28, 28, 28, 28, 28, 28, 28, 28, 30, 28,
    28, 28, 28, 28, 28, 28, 28, 28, 6, 10, 10, 12, 13, 6, 8, 11, 10, 10, 8, 11, 8, 6, 6, 6, 5, 5, 5,
    6, 6, 6, 6, 6, 6, 6, 7, 8, 15, 6, 12, 10, 13, 6, 7, 7, 7, 7, 7, 7, 7, 7, 7, 7, 7, 7, 7, 7, 7, 7,
    7, 7, 7, 7, 7, 7, 8, 7, 8, 13, 19, 13, 14, 6, 15, 5, 6, 5, 6, 5, 6, 6, 6, 5, 7, 7, 6, 6, 6, 5,
    6, 7, 6, 5, 5, 6, 7, 7, 7, 7, 7, 15, 11, 14, 13, 28, 20, 22, 20, 20, 22, 22, 22, 23, 22, 23, 23,
    23, 23, 23, 24, 23, 24, 24, 22, 23, 24, 23, 23, 23, 23, 21, 22, 23, 22, 23, 23, 24, 22, 21, 20,
    22, 22, 23, 23, 21, 23, 22, 22, 24, 21, 22, 23, 23, 21, 21, 22, 21, 23, 22, 23, 23, 20, 22, 22,
    22, 23, 22, 22, 23, 26, 26, 20, 19, 22, 23, 22, 25, 26, 26, 26, 27, 27, 26, 24, 25, 19, 21, 26,
    27, 27, 26, 27, 24, 21, 21, 26, 26, 28, 27, 27, 27, 20, 24, 20, 21, 22, 21, 21, 23, 22, 22, 25,
    25, 24, 24, 26, 23, 26, 27, 26, 26, 27, 27, 27, 27, 27, 28, 27, 27, 27, 27, 27, 26, 30,
];
const LONGEST: usize = 30;

/// The codes of one length: the first, how many there are, and how many symbols have shorter ones.
#[derive(Clone, Copy)]
struct Codes {
    first: usize,
    count: usize,
    shorter: usize,
}

const CODES: [Codes; LONGEST + 1] = codes();
/// The symbols in the order of their codes.
const SYMBOLS: [u16; 257] = symbols();

const fn codes() -> [Codes; LONGEST + 1] {
    let mut codes = [Codes { first: 0, count: 0, shorter: 0 }; LONGEST + 1];
    let mut symbol = 0;
    while symbol < LENGTHS.len() {
        codes[LENGTHS[symbol] as usize].count += 1;
        symbol += 1;
    }
    let mut len = 1;
    while len <= LONGEST {
        let before = codes[len - 1];
        codes[len].first = (before.first + before.count) << 1;
        codes[len].shorter = before.shorter + before.count;
        len += 1;
    }
    codes
}

const fn symbols() -> [u16; 257] {
    let (mut symbols, mut places, mut symbol) = ([0; 257], codes(), 0);
    while symbol < LENGTHS.len() {
        let len = LENGTHS[symbol] as usize;
        symbols[places[len].shorter] = symbol as u16;
        places[len].shorter += 1;
        symbol += 1;
    }
    symbols
}

/// What bits that stand for a text decode to; `None` where they are no codes, or have more behind
/// them than the padding of ones.
pub fn decode(bytes: &[u8]) -> Option<Vec<u8>> {
    let bits: Vec<u8> =
        bytes.iter().flat_map(|byte| (0..8).rev().map(move |at| byte >> at & 1)).collect();
    let (mut left, mut text) = (&bits[..], Vec::new());
    while let Some((symbol, len)) = next_symbol(left) {
        text.push(u8::try_from(symbol).ok()?); // The code of the end may not come.
        left = &left[len..];
    }
    (left.len() < 8 && left.iter().all(|&bit| bit == 1)).then(|| text)
}

/// The symbol with whose code the bits begin, and how long that is.
fn next_symbol(bits: &[u8]) -> Option<(u16, usize)> {
    let mut code = 0;
    for (len, &bit) in (1..=LONGEST).zip(bits) {
        code = code << 1 | usize::from(bit);
        let Codes { first, count, shorter } = CODES[len];
        if code < first + count {
            return Some((SYMBOLS[shorter + code - first], len));
        }
    }
    None
}
