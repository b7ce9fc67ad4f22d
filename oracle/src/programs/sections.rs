//! The sections of a program's input, taken from its front.

/// What is left of an input; nothing comes of one that is cut short.
pub struct Rest<'a>(pub &'a [u8]);

impl<'a> Rest<'a> {
    pub fn bytes(&mut self, count: usize) -> Option<&'a [u8]> {
        let taken = self.0.get(..count)?;
        self.0 = &self.0[count..];
        Some(taken)
    }

    pub fn byte(&mut self) -> Option<u8> {
        Some(self.bytes(1)?[0])
    }

    /// "Two bytes, high first."
    pub fn pair(&mut self) -> Option<[u8; 2]> {
        self.bytes(2)?.try_into().ok()
    }

    /// Where nothing goes on past the last section.
    pub fn ended<T>(self, sections: T) -> Option<T> {
        self.0.is_empty().then_some(sections)
    }
}
