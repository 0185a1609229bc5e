// A plain lexer of scripts, for comparing: words, decimal numbers, texts, signs, blanks and line comments, as `lex` has them.
use std::time::Instant;

#[allow(dead_code)]
enum Kind {
    Word(Vec<u16>),
    Number(u64),
    Text(Vec<u16>),
    Sign(&'static str),
}

#[allow(dead_code)]
struct Token {
    kind: Kind,
    line: u32,
    column: u32,
    after_line: bool,
}

const SIGNS: [&str; 48] = [
    ">>>=", "===", "!==", ">>>", "<<=", ">>=", "<=", ">=", "==", "!=", "++", "--", "<<", ">>", "&&", "||", "+=", "-=", "*=",
    "/=", "%=", "&=", "|=", "^=", "{", "}", "(", ")", "[", "]", ".", ";", ",", "<", ">", "+", "-", "*", "/", "%", "&", "|",
    "^", "!", "~", "?", ":", "=",
];

fn begins_word(unit: u16) -> bool {
    matches!(unit, 97..=122 | 65..=90 | 36 | 95)
}

fn is_digit(unit: u16) -> bool {
    matches!(unit, 48..=57)
}

fn run(units: &[u16], test: impl Fn(u16) -> bool) -> usize {
    units.iter().take_while(|unit| test(**unit)).count()
}

fn text(units: &[u16]) -> Option<(Kind, usize)> {
    let mut content = Vec::new();
    let mut at = 1;
    loop {
        match *units.get(at)? {
            unit if unit == units[0] => return Some((Kind::Text(content), at + 1)),
            92 => {
                content.push(*units.get(at + 1)?);
                at += 2;
            }
            unit => {
                content.push(unit);
                at += 1;
            }
        }
    }
}

fn sign(units: &[u16]) -> Option<(Kind, usize)> {
    let stands = |sign: &&&str| sign.len() <= units.len() && sign.bytes().zip(units).all(|(a, b)| u16::from(a) == *b);
    let sign = SIGNS.iter().find(stands)?;
    Some((Kind::Sign(sign), sign.len()))
}

fn token(units: &[u16]) -> Option<(Kind, usize)> {
    if begins_word(units[0]) {
        let count = run(units, |unit| begins_word(unit) || is_digit(unit));
        Some((Kind::Word(units[..count].to_vec()), count))
    } else if is_digit(units[0]) {
        let count = run(units, is_digit);
        let value = units[..count].iter().fold(0, |value, digit| value * 10 + u64::from(digit - 48));
        Some((Kind::Number(value), count))
    } else if matches!(units[0], 34 | 39) {
        text(units)
    } else {
        sign(units)
    }
}

fn lex(units: &[u16]) -> Option<Vec<Token>> {
    let mut tokens = Vec::new();
    let (mut at, mut line, mut column, mut after_line) = (0, 1, 1, false);
    while at < units.len() {
        let rest = &units[at..];
        let count = match rest {
            [10, ..] => {
                line += 1;
                column = 0;
                after_line = true;
                1
            }
            [32 | 9, ..] => 1,
            [47, 47, ..] => run(rest, |unit| unit != 10),
            _ => {
                let (kind, count) = token(rest)?;
                tokens.push(Token { kind, line, column, after_line });
                after_line = false;
                count
            }
        };
        at += count;
        column += count as u32;
    }
    Some(tokens)
}

fn main() {
    let mut words = std::env::args().skip(1);
    let file = words.next().expect("a script");
    let count: u32 = words.next().expect("a count").parse().expect("a count");
    let units: Vec<u16> = std::fs::read_to_string(file).expect("a script").encode_utf16().collect();
    let start = Instant::now();
    let tokens: usize = (0..count).map(|_| lex(&units).expect("a script").len()).sum();
    println!("{tokens} tokens, {} nanoseconds", start.elapsed().as_nanos());
}
