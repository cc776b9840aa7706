//! Counts of calls and of what they did.

use std::fmt;
use store::{Answer, Call, State};

/// How many calls got which answer.
#[derive(Clone, Debug, Default)]
pub struct Counts {
    pub calls: u64,
    pub accepted: u64,
    pub hits: u64,
    pub misses: u64,
    /// Rows loaded, also by loads that were refused at a later row.
    pub rows: u64,
    /// By refusal number, from 1 at index 1.
    pub refusals: [u64; 11],
    /// Calls and restarts cut, and restarts that finished a call or found none.
    pub cuts: u64,
    pub restarts: u64,
    /// Changes accepted and lookups answered on a volume of k hash functions, at index k.
    pub hash_counts: [u64; 9],
    /// Sets built over entries, and over deletions.
    pub sets: u64,
    pub full_sets: u64,
    pub deletion_sets: u64,
    pub full_deletion_sets: u64,
    /// Pages of deletions opened by lookups.
    pub deletion_pages: u64,
}

impl Counts {
    pub fn add(&mut self, other: &Counts) {
        self.calls += other.calls;
        self.accepted += other.accepted;
        self.hits += other.hits;
        self.misses += other.misses;
        self.rows += other.rows;
        for (sum, count) in self.refusals.iter_mut().zip(other.refusals) {
            *sum += count;
        }
        for (sum, count) in self.hash_counts.iter_mut().zip(other.hash_counts) {
            *sum += count;
        }
        self.cuts += other.cuts;
        self.restarts += other.restarts;
        self.sets += other.sets;
        self.full_sets += other.full_sets;
        self.deletion_sets += other.deletion_sets;
        self.full_deletion_sets += other.full_deletion_sets;
        self.deletion_pages += other.deletion_pages;
    }

    pub(crate) fn count(&mut self, call: Call, before: State, answer: Answer) {
        self.calls += 1;
        self.restarts += u64::from(call == Call::Restart && answer.accepted());
        match answer {
            Answer::Lookup(result) if result.refusal == 0 && result.found == 1 => self.hits += 1,
            Answer::Lookup(result) if result.refusal == 0 => self.misses += 1,
            _ if answer.is_cut() => self.cuts += 1,
            _ if answer.accepted() => self.accepted += 1,
            _ => self.refusals[answer.refusal().min(10) as usize] += 1,
        }
        if answer.accepted() {
            let state = answer.state().unwrap_or(before);
            self.hash_counts[state.hash_count.min(8) as usize] += 1;
        }
        if let Answer::Load(result) = answer {
            self.rows += u64::from(result.rows);
        }
        if let Answer::Lookup(result) = answer {
            self.deletion_pages += result.deletion_count;
        }
        // A set is built when 128 filters more are there, the last one of S/4 is full: pages of S/2 entries have one, of S deletions two.
        let built = |sector_size: u32, from: u32, to: u32| {
            // A restart may be handed any state.
            if to <= from || sector_size != before.sector_size {
                return [0, 0];
            }
            // Something was accepted, so that the products are small.
            let round = 64 * sector_size;
            [round, round * (sector_size / 4)].map(|step| u64::from(to / step - from / step))
        };
        if let Some(state) = answer.state() {
            let built = |from, to| built(state.sector_size, from, to);
            let [sets, full_sets] = built(before.records, state.records);
            self.sets += sets;
            self.full_sets += full_sets;
            let [sets, full_sets] = built(before.deletions, state.deletions);
            self.deletion_sets += sets;
            self.full_deletion_sets += full_sets;
        }
    }
}

impl fmt::Display for Counts {
    fn fmt(&self, f: &mut fmt::Formatter) -> fmt::Result {
        write!(
            f,
            "{} calls: {} accepted, {} hits, {} misses, {} rows loaded",
            self.calls, self.accepted, self.hits, self.misses, self.rows
        )?;
        write!(f, ", {} cut, {} restarts", self.cuts, self.restarts)?;
        for number in 1..=10 {
            write!(f, ", {} refused by {number}", self.refusals[number])?;
        }
        for k in 1..=8 {
            write!(f, ", {} done with k = {k}", self.hash_counts[k])?;
        }
        write!(f, "; {} sets built, {} of them full", self.sets, self.full_sets)?;
        write!(
            f,
            "; over deletions {} sets, {} of them full, {} pages opened",
            self.deletion_sets, self.full_deletion_sets, self.deletion_pages
        )
    }
}
