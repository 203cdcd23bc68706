//! Plans as readable text, one command per line, and back.
//!
//!     count 3 2 1                  (rules, units, edges)
//!     given 5 6                    (atoms)
//!     table in=0,1,2 truth=96      (input atoms; truth word in hexadecimal; each part may be left out)
//!     rule head=0,1 pos=2 neg=3    (each part may be left out)
//!     use 1 0 true                 (rule, table; or false, or another sign byte as a number)
//!     unit 0 1                     (rule numbers)
//!     edge 1 0
//!     show 0 1                     (atoms)
//!     end
//!     bytes 0a ff                  (any bytes, in hexadecimal)
//!
//! A `#` starts a comment. Any bytes can be turned into text and back without loss.

use crate::encode;

/// The plan's bytes, or what is wrong with which line.
pub fn to_bytes(text: &str) -> Result<Vec<u8>, String> {
    let mut bytes = Vec::new();
    for (number, line) in text.lines().enumerate() {
        let line = line.split('#').next().unwrap_or("").trim();
        if !line.is_empty() {
            let command = line_to_bytes(line).ok_or(format!("line {}: cannot read \"{}\"", number + 1, line))?;
            bytes.extend(command);
        }
    }
    Ok(bytes)
}

fn line_to_bytes(line: &str) -> Option<Vec<u8>> {
    let mut parts = line.split_whitespace();
    let name = parts.next()?;
    let operands: Vec<&str> = parts.collect();
    match name {
        "count" if operands.len() == 3 => {
            let numbers: Option<Vec<u8>> = operands.iter().map(|number| number.parse().ok()).collect();
            Some(encode::count(numbers?.try_into().ok()?))
        }
        "given" => Some(encode::given(set(operands.iter().copied())?)),
        "table" => table_to_bytes(&operands),
        "rule" => rule_to_bytes(&operands),
        "use" if operands.len() == 3 => {
            let sign = SIGNS.iter().position(|&word| word == operands[2]).map(|sign| sign as u8);
            let sign = sign.or_else(|| operands[2].parse().ok())?;
            Some(encode::use_of(operands[0].parse().ok()?, operands[1].parse().ok()?, sign))
        }
        "unit" => Some(encode::unit(set(operands.iter().copied())?)),
        "edge" if operands.len() == 2 => Some(encode::edge(operands[0].parse().ok()?, operands[1].parse().ok()?)),
        "show" => Some(encode::show(set(operands.iter().copied())?)),
        "end" if operands.is_empty() => Some(encode::end()),
        "bytes" => operands.iter().map(|byte| u8::from_str_radix(byte, 16).ok()).collect(),
        _ => None,
    }
}

/// The words for the sign bytes 0 and 1.
const SIGNS: [&str; 2] = ["true", "false"];

fn table_to_bytes(parts: &[&str]) -> Option<Vec<u8>> {
    let (mut inputs, mut truth) = (0, 0);
    for part in parts {
        match part.split_once('=')? {
            ("in", atoms) => inputs = set(atoms.split(','))?,
            ("truth", word) => truth = u64::from_str_radix(word, 16).ok()?,
            _ => return None,
        }
    }
    Some(encode::table(inputs, truth))
}

fn rule_to_bytes(parts: &[&str]) -> Option<Vec<u8>> {
    let mut words = [0; 3];
    for part in parts {
        let (name, atoms) = part.split_once('=')?;
        let place = ["head", "pos", "neg"].iter().position(|&known| known == name)?;
        words[place] = set(atoms.split(','))?;
    }
    Some(encode::rule(words[0], words[1], words[2]))
}

/// The word with these bits, each a number from 0 to 63.
fn set<'a>(mut numbers: impl Iterator<Item = &'a str>) -> Option<u64> {
    numbers.try_fold(0, |word, number| Some(word | 1u64.checked_shl(number.parse().ok()?)?))
}

/// The text of any bytes; what is no whole command is written byte by byte.
pub fn to_text(bytes: &[u8]) -> String {
    let mut text = String::new();
    let mut rest = bytes;
    while let Some((line, length)) = command_to_line(rest) {
        text += &line;
        text.push('\n');
        rest = &rest[length..];
    }
    if !rest.is_empty() {
        let bytes: String = rest.iter().map(|byte| format!(" {:02x}", byte)).collect();
        text += &format!("bytes{}\n", bytes);
    }
    text
}

/// The line of the command at the front, and the command's length.
fn command_to_line(bytes: &[u8]) -> Option<(String, usize)> {
    let word = |place: usize| Some(u64::from_le_bytes(bytes.get(1 + 8 * place..9 + 8 * place)?.try_into().ok()?));
    match *bytes.first()? {
        encode::COUNT => Some((format!("count {} {} {}", bytes.get(1)?, bytes.get(2)?, bytes.get(3)?), 4)),
        encode::GIVEN => Some((format!("given {}", numbers(word(0)?, " ")).trim_end().to_string(), 9)),
        encode::TABLE => {
            let (inputs, truth) = (word(0)?, word(1)?);
            let inputs = if inputs == 0 { String::new() } else { format!(" in={}", numbers(inputs, ",")) };
            Some((format!("table{} truth={:x}", inputs, truth), 17))
        }
        encode::RULE => {
            let parts = [("head", word(0)?), ("pos", word(1)?), ("neg", word(2)?)];
            let written = parts.iter().filter(|(_, word)| *word != 0);
            let parts: String = written.map(|(name, word)| format!(" {}={}", name, numbers(*word, ","))).collect();
            Some((format!("rule{}", parts), 25))
        }
        encode::USE => {
            let sign = *bytes.get(3)?;
            let sign = SIGNS.get(sign as usize).map_or(sign.to_string(), |word| word.to_string());
            Some((format!("use {} {} {}", bytes[1], bytes[2], sign), 4))
        }
        encode::UNIT => Some((format!("unit {}", numbers(word(0)?, " ")).trim_end().to_string(), 9)),
        encode::EDGE => Some((format!("edge {} {}", bytes.get(1)?, bytes.get(2)?), 3)),
        encode::SHOW => Some((format!("show {}", numbers(word(0)?, " ")).trim_end().to_string(), 9)),
        encode::END => Some(("end".to_string(), 1)),
        _ => None,
    }
}

/// The numbers of a word's bits, rising.
fn numbers(word: u64, between: &str) -> String {
    let bits = (0..64).filter(|bit| word >> bit & 1 == 1);
    bits.map(|bit| bit.to_string()).collect::<Vec<_>>().join(between)
}
