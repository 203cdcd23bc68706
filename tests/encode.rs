//! The bytes of each command of a plan, for all that makes plans in Rust; `commands.py` has them for Python.

pub const COUNT: u8 = 0x07;
pub const GIVEN: u8 = 0x04;
pub const TABLE: u8 = 0x05;
pub const RULE: u8 = 0x01;
pub const USE: u8 = 0x06;
pub const UNIT: u8 = 0x02;
pub const EDGE: u8 = 0x03;
pub const SHOW: u8 = 0x08;
pub const END: u8 = 0x00;

pub fn count([rules, units, edges]: [u8; 3]) -> Vec<u8> {
    vec![COUNT, rules, units, edges]
}

pub fn given(atoms: u64) -> Vec<u8> {
    command(GIVEN, &[atoms])
}

pub fn table(inputs: u64, truth: u64) -> Vec<u8> {
    command(TABLE, &[inputs, truth])
}

pub fn rule(head: u64, positive: u64, negative: u64) -> Vec<u8> {
    command(RULE, &[head, positive, negative])
}

/// The sign is 0 for must be true and 1 for must be false.
pub fn use_of(rule: u8, table: u8, sign: u8) -> Vec<u8> {
    vec![USE, rule, table, sign]
}

pub fn unit(rules: u64) -> Vec<u8> {
    command(UNIT, &[rules])
}

pub fn edge(u: u8, v: u8) -> Vec<u8> {
    vec![EDGE, u, v]
}

pub fn show(atoms: u64) -> Vec<u8> {
    command(SHOW, &[atoms])
}

pub fn end() -> Vec<u8> {
    vec![END]
}

/// A command byte and its words, lowest byte first.
fn command(byte: u8, words: &[u64]) -> Vec<u8> {
    let mut bytes = vec![byte];
    words.iter().for_each(|word| bytes.extend(word.to_le_bytes()));
    bytes
}
