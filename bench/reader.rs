//! The same records read by a plain loop: `split` at LF, fields by hand, owned names, the tokens of a rule in arrays as in the reader.
use std::time::Instant;

pub enum Token {
    Number(i64),
    Reg(u8),
    Cfa,
    Undef,
    Other(Box<Box<[u8]>>),
    Sign(u8),
}

pub enum Target {
    Cfa,
    Ra,
    Reg(u8),
    Other(Box<Box<[u8]>>),
}

pub enum Tokens {
    One([Token; 1]),
    Three([Token; 3]),
    Four([Token; 4]),
    Many(Vec<Token>),
}

pub struct Rule {
    pub target: Target,
    pub tokens: Tokens,
}

pub enum Line {
    Module(Vec<u8>),
    Func { many: bool, address: u64, size: u64, params: u64, name: Vec<u8> },
    Line { address: u64, size: u64, line: u32, file: u32 },
    Public { many: bool, address: u64, params: u64, name: Vec<u8> },
    Init { address: u64, size: u64, rules: Vec<Rule> },
    Change { address: u64, rules: Vec<Rule> },
}

struct Fields<'a> {
    rest: &'a [u8],
}

impl<'a> Fields<'a> {
    fn next(&mut self) -> Option<&'a [u8]> {
        let start = self.rest.iter().position(|b| *b != b' ')?;
        let rest = &self.rest[start..];
        let end = rest.iter().position(|b| *b == b' ').unwrap_or(rest.len());
        self.rest = &rest[end..];
        Some(&rest[..end])
    }

    fn hex(&mut self) -> Option<u64> {
        hex(self.next()?)
    }

    fn decimal(&mut self) -> Option<u32> {
        let word = self.next()?;
        if word.len() > 20 {
            return None;
        }
        let mut n: u32 = 0;
        for b in word {
            if !b.is_ascii_digit() {
                return None;
            }
            n = n.checked_mul(10)?.checked_add(u32::from(b - b'0'))?;
        }
        Some(n)
    }

    fn name(&self) -> Option<Vec<u8>> {
        let start = self.rest.iter().position(|b| *b != b' ')?;
        Some(self.rest[start..].to_vec())
    }

    fn mark(&mut self) -> bool {
        let before = self.rest;
        if self.next() == Some(b"m") {
            return true;
        }
        self.rest = before;
        false
    }
}

fn hex(word: &[u8]) -> Option<u64> {
    if word.len() > 16 {
        return None;
    }
    let mut n = 0;
    for b in word {
        let v = match b {
            b'0'..=b'9' => b - b'0',
            b'a'..=b'f' => b - b'a' + 10,
            b'A'..=b'F' => b - b'A' + 10,
            _ => return None,
        };
        n = n << 4 | u64::from(v);
    }
    Some(n)
}

const REGISTERS: [&[u8]; 16] = [
    b"$rax", b"$rdx", b"$rcx", b"$rbx", b"$rsi", b"$rdi", b"$rbp", b"$rsp", b"$r8", b"$r9", b"$r10", b"$r11", b"$r12", b"$r13", b"$r14", b"$r15",
];

fn register(word: &[u8]) -> Option<u8> {
    REGISTERS.iter().position(|name| *name == word).map(|k| k as u8)
}

fn is_symbol(word: &[u8]) -> bool {
    matches!(word.first(), Some(b'$' | b'.' | b'A'..=b'Z' | b'a'..=b'z')) && word.last() != Some(&b':')
}

fn target(word: &[u8]) -> Option<Target> {
    let name = word.strip_suffix(b":")?;
    if !is_symbol(name) {
        return None;
    }
    Some(match name {
        b".cfa" => Target::Cfa,
        b".ra" => Target::Ra,
        _ => register(name).map_or_else(|| Target::Other(Box::new(name.into())), Target::Reg),
    })
}

fn integer(word: &[u8]) -> Option<i64> {
    let (minus, digits) = match word {
        [b'-', digits @ ..] => (true, digits),
        _ => (false, word),
    };
    if digits.is_empty() || digits.len() > 20 {
        return None;
    }
    let mut n: i64 = 0;
    for b in digits {
        if !b.is_ascii_digit() {
            return None;
        }
        n = n.checked_mul(10)?.checked_sub(i64::from(b - b'0'))?;
    }
    if minus { Some(n) } else { n.checked_neg() }
}

fn token(word: &[u8]) -> Option<Token> {
    if is_symbol(word) {
        return Some(match word {
            b".cfa" => Token::Cfa,
            b".undef" => Token::Undef,
            _ => register(word).map_or_else(|| Token::Other(Box::new(word.into())), Token::Reg),
        });
    }
    if let Some(n) = integer(word) {
        return Some(Token::Number(n));
    }
    match word {
        [sign @ (b'+' | b'-' | b'*' | b'/' | b'%' | b'@' | b'^')] => Some(Token::Sign(*sign)),
        _ => None,
    }
}

fn tokens(fields: &mut Fields<'_>) -> Option<Tokens> {
    let mut first = [const { Token::Undef }; 4];
    let mut more = Vec::new();
    let mut count = 0;
    loop {
        let before = fields.rest;
        let Some(word) = fields.next() else { break };
        if word.last() == Some(&b':') {
            fields.rest = before;
            break;
        }
        let token = token(word)?;
        if count < 4 {
            first[count] = token;
        } else {
            if count == 4 {
                more.extend(std::mem::replace(&mut first, [const { Token::Undef }; 4]));
            }
            more.push(token);
        }
        count += 1;
    }
    let [a, b, c, d] = first;
    match count {
        0 => None,
        1 => Some(Tokens::One([a])),
        2 => Some(Tokens::Many(vec![a, b])),
        3 => Some(Tokens::Three([a, b, c])),
        4 => Some(Tokens::Four([a, b, c, d])),
        _ => Some(Tokens::Many(more)),
    }
}

fn rules(fields: &mut Fields<'_>) -> Option<Vec<Rule>> {
    let mut rules = Vec::new();
    while let Some(word) = fields.next() {
        let target = target(word)?;
        rules.push(Rule { target, tokens: tokens(fields)? });
    }
    if rules.is_empty() { None } else { Some(rules) }
}

fn line(bytes: &[u8]) -> Option<Line> {
    let end = bytes.iter().rposition(|b| *b != b'\r').map_or(0, |k| k + 1);
    let mut fields = Fields { rest: &bytes[..end] };
    let word = fields.next()?;
    match word {
        b"MODULE" => Some(Line::Module(fields.name()?)),
        b"FUNC" => Some(Line::Func { many: fields.mark(), address: fields.hex()?, size: fields.hex()?, params: fields.hex()?, name: fields.name()? }),
        b"PUBLIC" => Some(Line::Public { many: fields.mark(), address: fields.hex()?, params: fields.hex()?, name: fields.name()? }),
        b"STACK" => {
            if fields.next()? != b"CFI" {
                return None;
            }
            let before = fields.rest;
            if fields.next() == Some(b"INIT") {
                return Some(Line::Init { address: fields.hex()?, size: fields.hex()?, rules: rules(&mut fields)? });
            }
            fields.rest = before;
            Some(Line::Change { address: fields.hex()?, rules: rules(&mut fields)? })
        }
        _ => Some(Line::Line { address: hex(word)?, size: fields.hex()?, line: fields.decimal()?, file: fields.decimal()? }),
    }
}

fn main() {
    let name = std::env::args().nth(1).unwrap();
    let text = std::fs::read(name).unwrap();
    let start = Instant::now();
    let mut lines = Vec::new();
    for bytes in text.split(|b| *b == b'\n') {
        if bytes.iter().all(|b| matches!(b, b' ' | b'\r')) {
            continue;
        }
        lines.push(line(bytes).unwrap());
    }
    let took = start.elapsed().as_millis();
    println!("{took} {} {} {}", text.len(), lines.len(), size_of::<Line>());
}
