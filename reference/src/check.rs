//! A check of many bytes in one number, simple enough for any program: h starts at 1, and each byte b
//! makes it (65599·h + b) mod 4294967291, the largest prime below 2^32. Written in decimal.

const MULTIPLIER: u64 = 65_599;
const MODULUS: u64 = 4_294_967_291;

pub fn check(bytes: &[u8]) -> u64 {
    bytes
        .iter()
        .fold(1, |h, &byte| (MULTIPLIER * h + u64::from(byte)) % MODULUS)
}
