//! SHA-256 of bytes, as `sha256sum` prints it, and base64.

use sha2::{Digest, Sha256};

const BASE64: &[u8; 64] = b"ABCDEFGHIJKLMNOPQRSTUVWXYZabcdefghijklmnopqrstuvwxyz0123456789+/";

pub fn sha256(bytes: &[u8]) -> [u8; 32] {
    Sha256::digest(bytes).into()
}

pub fn hex(bytes: &[u8]) -> String {
    bytes.iter().map(|byte| format!("{:02x}", byte)).collect()
}

pub fn base64(bytes: &[u8]) -> String {
    let group = |chunk: &[u8]| {
        let word = (0..3).fold(0usize, |word, k| word << 8 | usize::from(chunk.get(k).copied().unwrap_or(0)));
        (0..4).map(|k| if k <= chunk.len() { BASE64[word >> (18 - 6 * k) & 63] as char } else { '=' }).collect::<String>()
    };
    bytes.chunks(3).map(group).collect()
}
