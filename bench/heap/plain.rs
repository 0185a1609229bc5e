// The work of crates/pac_bench/src/heap.rt in plain Rust, with BTreeMap and Vec: `plain WORK SIZE COUNT` prints a checksum.
use std::collections::BTreeMap;
use std::env;

#[derive(Clone)]
enum Value {
    Undefined,
    Number(i64),
}

fn chosen_name(number: u32) -> Vec<u16> {
    let mut units = vec![97; 20];
    let mut rest = number;
    for at in 0..8 {
        units[19 - at] = 48 + (rest % 10) as u16;
        rest /= 10;
    }
    units
}

fn random_name(number: u32) -> Vec<u16> {
    let mut units = vec![97; 20];
    let mut state = u64::from(number).wrapping_mul(0x9E37_79B9_7F4A_7C15);
    for unit in &mut units {
        state = state.wrapping_mul(6364136223846793005).wrapping_add(1442695040888963407);
        *unit = 97 + (state / 8589934592 % 26) as u16;
    }
    units
}

fn number_in(value: &Value) -> u64 {
    match value {
        Value::Number(number) => number.unsigned_abs(),
        Value::Undefined => 0,
    }
}

fn gets(size: u32, count: u32) -> u64 {
    let mut object = BTreeMap::new();
    let mut names = Vec::new();
    for number in 0..size {
        let name = random_name(number);
        object.insert(name.clone(), Value::Number(i64::from(number)));
        names.push(name);
    }
    let mut sum: u64 = 0;
    let mut at = 0;
    for _ in 0..count {
        if at >= names.len() {
            at = 0;
        }
        if at < names.len() {
            let found = object.get(&names[at]).cloned().unwrap_or(Value::Undefined);
            sum = sum.wrapping_add(number_in(&found));
            at += 1;
        }
    }
    sum
}

fn slots(size: u32, count: u32) -> u64 {
    let mut scope = vec![Value::Undefined; size as usize];
    let mut sum: u64 = 0;
    for turn in 0..count {
        let slot = (turn % size.max(1)) as usize;
        scope[slot] = Value::Number(i64::from(turn));
        sum = sum.wrapping_add(number_in(&scope[slot].clone()));
    }
    sum
}

fn additions(count: u32, name_of: fn(u32) -> Vec<u16>) -> u64 {
    let mut object = BTreeMap::new();
    for number in 0..count {
        object.insert(name_of(number), Value::Number(i64::from(number)));
    }
    object.len() as u64 + 1
}

fn deletions(count: u32) -> u64 {
    let mut object = BTreeMap::new();
    let mut names = Vec::new();
    for number in 0..count {
        let name = random_name(number);
        object.insert(name.clone(), Value::Number(i64::from(number)));
        names.push(name);
    }
    names.iter().filter(|name| object.remove(*name).is_some()).count() as u64
}

fn main() {
    let words: Vec<String> = env::args().collect();
    let number = |at: usize| words.get(at).and_then(|word| word.parse().ok()).unwrap_or(0);
    let (size, count) = (number(2), number(3));
    let sum = match words.get(1).map(String::as_str) {
        Some("gets") => gets(size, count),
        Some("slots") => slots(size, count),
        Some("chosen") => additions(count, chosen_name),
        Some("random") => additions(count, random_name),
        Some("deleted") => deletions(count),
        _ => panic!("gets, slots, chosen, random or deleted, a size and a count"),
    };
    println!("{sum}");
}
