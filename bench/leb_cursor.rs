// The loops of leb_cursor.rt.txt in safe Rust: the same cursor, the same forms, the same bytes.
use std::hint::black_box;
use std::time::Instant;

const COUNT: usize = 1000000;
const ROUNDS: usize = 100;

#[allow(dead_code)]
#[derive(Clone, Copy, Debug)]
enum CursorFault {
    Ends { at: usize },
    LebLong { at: usize },
    NoZero { at: usize },
}

struct Cursor<'a> {
    bytes: &'a [u8],
    place: usize,
}

enum Groups {
    Ended { sum: u64, count: usize },
    Going { sum: u64 },
}

#[inline]
fn read_groups(bytes: &[u8]) -> Groups {
    let limit = bytes.len().min(9);
    let mut sum = 0;
    for index in 0..limit {
        let byte = bytes[index];
        sum += u64::from(byte % 128) << (7 * index);
        if byte < 128 {
            return Groups::Ended { sum, count: index + 1 };
        }
    }
    Groups::Going { sum }
}

#[inline]
fn uleb_front(bytes: &[u8], at: usize) -> Result<(u64, usize), CursorFault> {
    match read_groups(bytes) {
        Groups::Ended { sum, count } => Ok((sum, count)),
        Groups::Going { .. } if bytes.len() < 10 => Err(CursorFault::Ends { at }),
        Groups::Going { sum } => match bytes[9] {
            0 => Ok((sum, 10)),
            1 => Ok((sum + (1 << 63), 10)),
            2.. => Err(CursorFault::LebLong { at }),
        },
    }
}

impl<'a> Cursor<'a> {
    fn new(bytes: &'a [u8], at: usize, end: usize) -> Self {
        Cursor { bytes: &bytes[..end], place: at }
    }

    #[inline]
    fn uleb(&mut self) -> Result<u64, CursorFault> {
        let rest = &self.bytes[self.place..];
        if let [byte, ..] = rest
            && *byte < 128
        {
            self.place += 1;
            return Ok(u64::from(*byte));
        }
        let front = uleb_front(rest, self.place)?;
        self.place += front.1;
        Ok(front.0)
    }

    // Rust's std has no `memchr` of a slice: its readers of DWARF search by `position`.
    #[inline]
    fn text(&mut self) -> Result<&'a [u8], CursorFault> {
        let rest = &self.bytes[self.place..];
        match rest.iter().position(|byte| *byte == 0) {
            Some(length) => {
                self.place += length + 1;
                Ok(&rest[..length])
            }
            None => Err(CursorFault::NoZero { at: self.place }),
        }
    }
}

fn next(state: u64) -> u64 {
    state.wrapping_mul(6364136223846793005).wrapping_add(1442695040888963407)
}

fn make_numbers() -> Vec<u8> {
    let mut bytes = Vec::new();
    let mut state = 1;
    for _ in 0..COUNT {
        state = next(state);
        let pick = (state >> 40) % 100;
        let more = if pick < 62 {
            0
        } else if pick < 87 {
            1
        } else if pick < 99 {
            2
        } else {
            4
        };
        for _ in 0..more {
            state = next(state);
            bytes.push((128 + (state >> 40) % 128) as u8);
        }
        state = next(state);
        bytes.push(((state >> 40) % 128) as u8);
    }
    bytes
}

fn make_texts() -> Vec<u8> {
    let mut bytes = Vec::new();
    let mut state = 2;
    for _ in 0..COUNT {
        state = next(state);
        let length = (state >> 40) % 32;
        for _ in 0..length {
            state = next(state);
            bytes.push((97 + (state >> 40) % 26) as u8);
        }
        bytes.push(0);
    }
    bytes
}

fn read_numbers(bytes: &[u8]) -> u64 {
    let mut cursor = Cursor::new(bytes, 0, bytes.len());
    let mut total: u64 = 0;
    for _ in 0..bytes.len() {
        match cursor.uleb() {
            Ok(number) => total = total.wrapping_add(number),
            Err(_) => return total,
        }
    }
    total
}

fn read_texts(bytes: &[u8]) -> u64 {
    let mut cursor = Cursor::new(bytes, 0, bytes.len());
    let mut total: u64 = 0;
    for _ in 0..bytes.len() {
        match cursor.text() {
            Ok(text) => total = total.wrapping_add(text.len() as u64),
            Err(_) => return total,
        }
    }
    total
}

fn main() {
    let numbers = make_numbers();
    let texts = make_texts();
    let mut total: u64 = 0;
    let start = Instant::now();
    for _ in 0..ROUNDS {
        total = total.wrapping_add(read_numbers(black_box(&numbers)));
    }
    let numbers_took = start.elapsed().as_millis();
    let start = Instant::now();
    for _ in 0..ROUNDS {
        total = total.wrapping_add(read_texts(black_box(&texts)));
    }
    let texts_took = start.elapsed().as_millis();
    println!("{numbers_took} {texts_took} {total}");
}
