//! The bytes of a strip that are left, taken from the front; where too few are, 23.

pub struct Left<'a>(pub &'a [u8]);

impl Left<'_> {
    fn array<const N: usize>(&mut self) -> Result<[u8; N], u8> {
        let (bytes, left) = self.0.split_first_chunk().ok_or(23)?;
        self.0 = left;
        Ok(*bytes)
    }

    pub fn u8(&mut self) -> Result<u8, u8> {
        self.array().map(|[byte]| byte)
    }

    pub fn u16(&mut self) -> Result<u16, u8> {
        self.array().map(u16::from_le_bytes)
    }

    pub fn u32(&mut self) -> Result<u32, u8> {
        self.array().map(u32::from_le_bytes)
    }

    /// The bits of floats.
    pub fn floats<const N: usize>(&mut self) -> Result<[u32; N], u8> {
        let mut floats = [0; N];
        for bits in &mut floats {
            *bits = self.u32()?;
        }
        Ok(floats)
    }

    pub fn curve(&mut self) -> Result<[u8; 4], u8> {
        self.array()
    }
}
