//! Logs with faults: sound ones that are damaged, and bytes by chance.
use super::records::fill;
use super::Random;
use crate::MISSING;

/// A log with one to four bytes or stretches changed, put in, taken out or exchanged.
pub fn damaged(random: &mut Random, mut log: Vec<u8>) -> Vec<u8> {
    for _ in 0..random.between(1, 4) {
        if log.is_empty() {
            return log;
        }
        let at = random.below(log.len());
        let other = random.below(log.len());
        match random.below(8) {
            0 => log[at] ^= 1 << random.below(8),
            1 => log[at] = random.bits() as u8,
            2 => log.insert(at, random.pick(&[0, 1, 2, 3, 6, 7, 8, 9, 255])),
            3 => drop(log.remove(at)),
            4 => log.swap(at, other),
            5 => log.truncate(at),
            6 => fill(&mut log[at..], &[MISSING as u16]),
            _ => drop(log.drain(at.min(other)..at.max(other))),
        }
    }
    log
}

/// Bytes by chance, with the kinds of records more often than others.
pub fn loose_bytes(random: &mut Random, most: usize) -> Vec<u8> {
    let length = random.below(most);
    (0..length)
        .map(|_| match random.below(3) {
            0 => random.bits() as u8,
            _ => random.pick(&[1, 2, 6, 8]),
        })
        .collect()
}
