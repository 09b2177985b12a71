//! The same records formatted by hand into one growing vector, as a careful programmer would in plain Rust.
use std::time::Instant;

const LINES: u64 = 10_000_000;
const OTHERS: u64 = 1_000_000;

fn hex(text: &mut Vec<u8>, mut number: u64) {
    let mut digits = [0u8; 16];
    let mut at = 16;
    loop {
        at -= 1;
        digits[at] = b"0123456789abcdef"[(number & 15) as usize];
        number >>= 4;
        if number == 0 {
            break;
        }
    }
    text.extend_from_slice(&digits[at..]);
}

fn decimal(text: &mut Vec<u8>, mut number: u32) {
    let mut digits = [0u8; 10];
    let mut at = 10;
    loop {
        at -= 1;
        digits[at] = b'0' + (number % 10) as u8;
        number /= 10;
        if number == 0 {
            break;
        }
    }
    text.push(b' ');
    text.extend_from_slice(&digits[at..]);
}

fn spaced_hex(text: &mut Vec<u8>, number: u64) {
    text.push(b' ');
    hex(text, number);
}

fn report(name: &str, text: &[u8], start: Instant) {
    let millis = start.elapsed().as_millis();
    let mut sum: u64 = 0;
    for byte in text {
        sum = sum.wrapping_mul(31).wrapping_add(u64::from(*byte));
    }
    println!("{name} {millis} {} {sum}", text.len());
}

fn main() {
    let start = Instant::now();
    let mut text = Vec::new();
    for k in 0..LINES {
        hex(&mut text, k * 7);
        spaced_hex(&mut text, k % 61);
        decimal(&mut text, (k % 4001) as u32);
        decimal(&mut text, (k % 300) as u32);
        text.push(b'\n');
    }
    report("lines", &text, start);
    let start = Instant::now();
    let mut text = Vec::new();
    for k in 0..OTHERS {
        text.extend_from_slice(if k % 9 == 0 { b"FUNC m".as_slice() } else { b"FUNC".as_slice() });
        spaced_hex(&mut text, k * 64);
        spaced_hex(&mut text, 61);
        spaced_hex(&mut text, 0);
        text.push(b' ');
        text.extend(b"a_function_of_it".iter().map(|b| if *b < 32 || *b == 127 { b'?' } else { *b }));
        text.push(b'\n');
    }
    report("functions", &text, start);
    let start = Instant::now();
    let mut text = Vec::new();
    for k in 0..OTHERS {
        text.extend_from_slice(b"INLINE");
        decimal(&mut text, (k % 4) as u32);
        decimal(&mut text, (k % 4001) as u32);
        decimal(&mut text, (k % 300) as u32);
        decimal(&mut text, (k % 1000) as u32);
        spaced_hex(&mut text, k * 64);
        spaced_hex(&mut text, 17);
        text.push(b'\n');
    }
    report("inlines", &text, start);
}
