//! The buffers that are lent to the library, with the bytes around them.

/// Bytes before and after the lent buffer that nothing may touch.
const MARGIN: usize = 16;

/// A buffer to lend, with the bytes around it.
#[derive(Clone)]
pub(super) struct Lent(Vec<u8>);

impl Lent {
    pub(super) fn new(turned: bool, length: usize) -> Self {
        Lent(pattern(turned, length + 2 * MARGIN))
    }

    pub(super) fn lend(&mut self) -> &mut [u8] {
        let end = self.0.len() - MARGIN;
        &mut self.0[MARGIN..end]
    }

    /// Every byte, those around the buffer too.
    pub(super) fn same_as(&self, expected: &Lent) -> Result<(), String> {
        if self.0 == expected.0 {
            return Ok(());
        }
        let both = self.0.iter().zip(&expected.0);
        let same = both.take_while(|(given, expected)| given == expected);
        let place = same.count();
        Err(format!(
            "byte {} is {}, not {}",
            place as i64 - MARGIN as i64,
            self.0[place],
            expected.0[place]
        ))
    }
}

/// What a buffer holds before it is lent. No byte is the same under both patterns, so each write shows.
fn pattern(turned: bool, length: usize) -> Vec<u8> {
    (0..length)
        .map(|place| (place * 37 + 11) as u8 ^ if turned { 0xFF } else { 0 })
        .collect()
}
