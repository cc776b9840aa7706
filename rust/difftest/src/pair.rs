//! Two stores side by side: each call is made on both, and everything is compared.

use crate::counts::Counts;
use std::fmt;
use store::{Answer, Call, Geometry, Lent, State, Store, HEADER_BYTES};

/// What differs, after which call.
#[derive(Clone, Debug)]
pub struct Difference {
    /// Number of the call in its scenario, from 1.
    pub number: u64,
    pub call: String,
    pub state: State,
    /// Lengths of data, spare and ram.
    pub lengths: [usize; 3],
    pub what: String,
}

impl fmt::Display for Difference {
    fn fmt(&self, f: &mut fmt::Formatter) -> fmt::Result {
        let [data, spare, ram] = self.lengths;
        writeln!(f, "call {}: {}", self.number, self.call)?;
        writeln!(f, "  on {:?}", self.state)?;
        writeln!(f, "  lent {data} data, {spare} spare, {ram} ram bytes")?;
        write!(f, "  {}", self.what)
    }
}

/// Bytes beside the lent slice; they must never change.
const GUARD_BYTES: usize = 64;
const GUARD: u8 = 0xA5;

/// A lent slice with guard bytes before and behind it, at an odd address or an even one.
#[derive(Clone)]
struct Buffer {
    bytes: Vec<u8>,
    start: usize,
    len: usize,
}

impl Buffer {
    fn new(len: usize, shift: usize) -> Buffer {
        let start = GUARD_BYTES + shift;
        let mut bytes = vec![GUARD; start + len + GUARD_BYTES];
        bytes[start..start + len].fill(0);
        Buffer { bytes, start, len }
    }

    fn slice(&self) -> &[u8] {
        &self.bytes[self.start..self.start + self.len]
    }

    fn slice_mut(&mut self) -> &mut [u8] {
        &mut self.bytes[self.start..self.start + self.len]
    }

    fn guards_intact(&self) -> bool {
        let (before, rest) = self.bytes.split_at(self.start);
        before.iter().chain(&rest[self.len..]).all(|&byte| byte == GUARD)
    }
}

/// The three lent slices of one side.
#[derive(Clone)]
pub struct Volume {
    data: Buffer,
    spare: Buffer,
    ram: Buffer,
}

impl Volume {
    fn new(lengths: [usize; 3], shift: usize) -> Volume {
        Volume {
            data: Buffer::new(lengths[0], shift),
            spare: Buffer::new(lengths[1], shift),
            ram: Buffer::new(lengths[2], shift),
        }
    }

    fn lent(&mut self) -> Lent<'_> {
        Lent {
            data: self.data.slice_mut(),
            spare: self.spare.slice_mut(),
            ram: self.ram.slice_mut(),
        }
    }

    /// The bytes of another volume of the same lengths.
    fn copy_from(&mut self, other: &Volume) {
        for (to, from) in [
            (&mut self.data, &other.data),
            (&mut self.spare, &other.spare),
            (&mut self.ram, &other.ram),
        ] {
            to.bytes.copy_from_slice(&from.bytes);
        }
    }
}

/// The first byte that differs, if any.
fn byte_difference(expected: &Volume, got: &Volume) -> Option<String> {
    for (name, expected, got) in [
        ("data", &expected.data, &got.data),
        ("spare", &expected.spare, &got.spare),
        ("ram", &expected.ram, &got.ram),
    ] {
        let (a, b) = (expected.slice(), got.slice());
        if a != b {
            let offset = a.iter().zip(b).position(|(x, y)| x != y).unwrap_or(0);
            return Some(format!(
                "{name} byte {offset}: expected {:02x}, got {:02x}",
                a[offset], b[offset]
            ));
        }
        if !expected.guards_intact() || !got.guards_intact() {
            return Some(format!("a byte outside the lent {name} bytes changed"));
        }
    }
    None
}

/// The bytes of both sides and the state at some time.
pub struct Moment {
    expected: Volume,
    got: Volume,
    pub state: State,
}

/// A reference store and the store under test, each with its own copy of the bytes.
pub struct Pair<'a> {
    reference: &'a dyn Store,
    subject: &'a dyn Store,
    expected: Volume,
    got: Volume,
    pub state: State,
    pub counts: Counts,
}

impl<'a> Pair<'a> {
    /// No bytes lent, the state all zero.
    pub fn new(reference: &'a dyn Store, subject: &'a dyn Store) -> Pair<'a> {
        let nothing = Volume::new([0; 3], 0);
        Pair {
            reference,
            subject,
            expected: nothing.clone(),
            got: nothing,
            state: State::default(),
            counts: Counts::default(),
        }
    }

    /// Lends new slices of these lengths (data, spare, ram), `shift` bytes off an aligned address.
    pub fn lend(&mut self, lengths: [usize; 3], shift: usize) {
        self.expected = Volume::new(lengths, shift);
        self.got = Volume::new(lengths, shift);
    }

    /// Lends slices for a volume of this geometry, each by `extra` bytes longer.
    pub fn lend_for(&mut self, geometry: Geometry, extra: usize, shift: usize) {
        let lengths = [
            geometry.data_bytes() + extra,
            geometry.spare_bytes() + extra,
            geometry.ram_bytes() + extra,
        ];
        self.lend(lengths, shift);
    }

    pub fn lengths(&self) -> [usize; 3] {
        [
            self.expected.data.len,
            self.expected.spare.len,
            self.expected.ram.len,
        ]
    }

    /// Writes many bytes of data, spare and ram, the same on both sides.
    pub fn fill(&mut self, write: impl FnOnce(&mut [u8], &mut [u8], &mut [u8])) {
        write(
            self.expected.data.slice_mut(),
            self.expected.spare.slice_mut(),
            self.expected.ram.slice_mut(),
        );
        for (to, from) in [
            (&mut self.got.data, &self.expected.data),
            (&mut self.got.spare, &self.expected.spare),
            (&mut self.got.ram, &self.expected.ram),
        ] {
            to.slice_mut().copy_from_slice(from.slice());
        }
    }

    /// Writes the same few bytes on both sides; those past the end are left out.
    pub fn write_data(&mut self, offset: usize, bytes: &[u8]) {
        write_at(self.expected.data.slice_mut(), offset, bytes);
        write_at(self.got.data.slice_mut(), offset, bytes);
    }

    pub fn write_spare(&mut self, offset: usize, bytes: &[u8]) {
        write_at(self.expected.spare.slice_mut(), offset, bytes);
        write_at(self.got.spare.slice_mut(), offset, bytes);
    }

    pub fn write_ram(&mut self, offset: usize, bytes: &[u8]) {
        write_at(self.expected.ram.slice_mut(), offset, bytes);
        write_at(self.got.ram.slice_mut(), offset, bytes);
    }

    /// The four-byte number at an offset, if it lies within the lent bytes.
    pub fn data_number(&self, offset: usize) -> Option<u32> {
        number_at(self.expected.data.slice(), offset)
    }

    pub fn ram_number(&self, offset: usize) -> Option<u32> {
        number_at(self.expected.ram.slice(), offset)
    }

    /// A number, 0 to 15, of the header in the last 64 bytes of the RAM; nothing if it has none.
    pub fn write_header(&mut self, i: usize, number: u32) {
        if let Some(start) = self.expected.ram.len.checked_sub(HEADER_BYTES) {
            self.write_ram(start + 4 * i, &number.to_le_bytes());
        }
    }

    /// The call on both sides; then answer (result and state), all bytes and the guards are compared.
    pub fn call(&mut self, call: Call) -> Result<Answer, Difference> {
        self.call_with(None, call)
    }

    /// The same with a budget of steps.
    pub fn call_cut(&mut self, budget: u64, call: Call) -> Result<Answer, Difference> {
        self.call_with(Some(budget), call)
    }

    fn call_with(&mut self, budget: Option<u64>, call: Call) -> Result<Answer, Difference> {
        let state = self.state;
        let expected = self
            .reference
            .call(budget, state, &call, &mut self.expected.lent());
        let got = self.subject.call(budget, state, &call, &mut self.got.lent());
        self.counts.count(call, state, expected);
        let what = if expected == got {
            byte_difference(&self.expected, &self.got)
        } else {
            Some(format!("expected {expected:?}\n  got      {got:?}"))
        };
        if let Some(what) = what {
            let mut difference = self.difference(call, state, what);
            if let Some(budget) = budget {
                difference.call += &format!(" with a budget of {budget}");
            }
            return Err(difference);
        }
        if let Some(next) = got.state() {
            self.state = next;
        }
        Ok(got)
    }

    pub fn moment(&self) -> Moment {
        Moment {
            expected: self.expected.clone(),
            got: self.got.clone(),
            state: self.state,
        }
    }

    /// Back to a moment since which nothing was lent.
    pub fn back_to(&mut self, moment: &Moment) {
        self.expected.copy_from(&moment.expected);
        self.got.copy_from(&moment.got);
        self.state = moment.state;
    }

    /// What is not as it was then, on either side.
    pub fn changed_since(&self, moment: &Moment) -> Option<String> {
        if self.state != moment.state {
            return Some(format!(
                "expected {:?}\n  got      {:?}",
                moment.state, self.state
            ));
        }
        byte_difference(&moment.expected, &self.expected).or_else(|| byte_difference(&moment.got, &self.got))
    }

    /// Of the last call, which was made on this state.
    pub fn difference(&self, call: Call, state: State, what: String) -> Difference {
        Difference {
            number: self.counts.calls,
            call: call.to_string(),
            state,
            lengths: self.lengths(),
            what,
        }
    }
}

fn number_at(slice: &[u8], offset: usize) -> Option<u32> {
    let bytes = slice.get(offset..)?.first_chunk::<4>()?;
    Some(u32::from_le_bytes(*bytes))
}

fn write_at(slice: &mut [u8], offset: usize, bytes: &[u8]) {
    for (place, &byte) in slice.iter_mut().skip(offset).zip(bytes) {
        *place = byte;
    }
}

#[cfg(test)]
mod tests {
    use super::*;

    #[test]
    fn every_byte_is_compared() {
        let volume = Volume::new([5, 4, 3], 1);
        assert_eq!(byte_difference(&volume, &volume), None);
        for side in 0..3 {
            let len = [5, 4, 3][side];
            for offset in 0..len {
                let mut other = volume.clone();
                let buffer = [&mut other.data, &mut other.spare, &mut other.ram];
                buffer[side].bytes[GUARD_BYTES + 1 + offset] ^= 1;
                assert!(byte_difference(&volume, &other).is_some());
            }
            for outside in [
                0,
                GUARD_BYTES,
                GUARD_BYTES + 1 + len,
                GUARD_BYTES + len + GUARD_BYTES,
            ] {
                let mut other = volume.clone();
                let buffer = [&mut other.data, &mut other.spare, &mut other.ram];
                buffer[side].bytes[outside] ^= 1;
                assert!(byte_difference(&volume, &other).is_some());
            }
        }
    }
}
