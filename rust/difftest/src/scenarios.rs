//! Scenarios: lists of calls made from a seed.

use crate::counts::Counts;
use crate::pair::{Difference, Pair};
use crate::random::Random;
use crate::{boundaries, cuts, damage, histories, loads, updates, wild};
use store::{Answer, Call, Geometry, Store, HASH_COUNT_01, HEADER_BYTES};

type Run = dyn Fn(&mut Test) -> Result<(), Difference>;

/// A name and the calls that it makes.
pub struct Scenario {
    pub name: String,
    /// Only with `--long`.
    pub long: bool,
    /// Only in the first round.
    pub once: bool,
    run: Box<Run>,
}

impl Scenario {
    pub(crate) fn new(
        name: String,
        long: bool,
        run: impl Fn(&mut Test) -> Result<(), Difference> + 'static,
    ) -> Scenario {
        Scenario {
            name,
            long,
            once: false,
            run: Box::new(run),
        }
    }

    pub(crate) fn once(self) -> Scenario {
        Scenario { once: true, ..self }
    }

    /// The same round makes the same calls.
    pub fn run(&self, reference: &dyn Store, subject: &dyn Store, round: u64) -> Result<Counts, Difference> {
        let mut test = Test {
            pair: Pair::new(reference, subject),
            random: Random::new(self.seed(round)),
            damaged: None,
        };
        (self.run)(&mut test)?;
        Ok(test.pair.counts)
    }

    /// Another one for each scenario and round.
    fn seed(&self, round: u64) -> u64 {
        self.name.bytes().fold(0x5EED + round, |seed, byte| {
            seed.wrapping_mul(0x100000001B3) ^ u64::from(byte)
        })
    }
}

/// A scenario under way.
pub(crate) struct Test<'a> {
    pub pair: Pair<'a>,
    pub random: Random,
    /// The volume whose bytes are altered between the calls, if they are.
    pub damaged: Option<Geometry>,
}

/// All scenarios, the short ones first.
pub fn all() -> Vec<Scenario> {
    let kinds = [
        wild::all(),
        histories::all(),
        damage::all(),
        boundaries::all(),
        updates::all(),
        loads::all(),
        cuts::all(),
    ];
    kinds.into_iter().flatten().collect()
}

/// A fresh volume of any k in slices of its own, with random bytes before the format.
pub(crate) fn format(test: &mut Test, s: u32, r: u32, d: u32) -> Result<(), Difference> {
    let (extra, shift) = (test.random.below(12), test.random.below(16));
    test.pair.lend_for(geometry(s, r, d), extra, shift);
    let random = &mut test.random;
    test.pair.fill(|data, spare, ram| {
        random.fill(data);
        random.fill(spare);
        random.fill(ram);
    });
    format_lent(test, s, r, d)?;
    Ok(())
}

/// A format of any k in the slices that are lent, now and then cut.
pub(crate) fn format_lent(test: &mut Test, s: u32, r: u32, d: u32) -> Result<Answer, Difference> {
    let call = Call::Format {
        sector_size: s,
        ra_blocks: r,
        da_blocks: d,
        hash_count: hash_count(&mut test.random),
    };
    cuts::call(test, call)
}

/// Sizes and addresses of a volume, which do not depend on k.
pub(crate) fn geometry(s: u32, r: u32, d: u32) -> Geometry {
    Geometry::new(s, r, d, HASH_COUNT_01).expect("the scenarios' sizes are allowed")
}

/// Any that is allowed.
pub(crate) fn hash_count(random: &mut Random) -> u32 {
    1 + random.below_u32(8)
}

/// No pending call in the header of a RAM.
pub(crate) fn clear_intent(ram: &mut [u8]) {
    if let Some(header) = ram.last_chunk_mut::<HEADER_BYTES>() {
        header[24..].fill(0);
    }
}
