//! The bytes that a call works on.

/// The slices lent for a call: `data`, `spare` and `ram` are document 01's cells, marks and desk. A lookup reads them only.
pub struct Lent<'a> {
    pub data: &'a mut [u8],
    pub spare: &'a mut [u8],
    pub ram: &'a mut [u8],
}

impl Lent<'_> {
    /// A copy of all bytes, for what is only tried.
    pub fn copy(&self) -> Memory {
        Memory {
            data: self.data.to_vec(),
            spare: self.spare.to_vec(),
            ram: self.ram.to_vec(),
        }
    }
}

/// Bytes of one's own to lend.
#[derive(Clone, Debug, Default, PartialEq, Eq)]
pub struct Memory {
    pub data: Vec<u8>,
    pub spare: Vec<u8>,
    pub ram: Vec<u8>,
}

impl Memory {
    /// So many bytes of each, all of them this one.
    pub fn filled(byte: u8, [data, spare, ram]: [usize; 3]) -> Memory {
        Memory {
            data: vec![byte; data],
            spare: vec![byte; spare],
            ram: vec![byte; ram],
        }
    }

    #[inline]
    pub fn lent(&mut self) -> Lent<'_> {
        Lent {
            data: &mut self.data,
            spare: &mut self.spare,
            ram: &mut self.ram,
        }
    }
}
