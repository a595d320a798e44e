//! The parts of a phase that wait, by the order in which they are looked for, and which of them may start.
use crate::bytes::Guid;
use crate::depex::{holds, Op};
use std::collections::{BTreeSet, HashMap};

#[derive(Default)]
pub struct Waiting {
    /// The modules in order.
    pub order: Vec<usize>,
    pub place_of: HashMap<usize, usize>,
    pub ready: BTreeSet<usize>,
    pushed_by: HashMap<Guid, Vec<usize>>,
    installed: HashMap<Guid, usize>,
    changed: Vec<Guid>,
}

impl Waiting {
    /// Puts a part behind the others, with the GUIDs that decide whether it may start; its place.
    pub fn push(&mut self, module: usize, guids: impl Iterator<Item = Guid>) -> usize {
        let place = self.order.len();
        self.order.push(module);
        self.place_of.insert(module, place);
        for guid in guids {
            let list = self.pushed_by.entry(guid).or_default();
            if list.last() != Some(&place) {
                list.push(place);
            }
        }
        place
    }

    pub fn is_installed(&self, guid: &Guid) -> bool {
        self.installed.get(guid).is_some_and(|count| *count > 0)
    }

    pub fn holds(&self, ops: &[Op]) -> bool {
        holds(ops, |guid| self.is_installed(guid))
    }

    /// The same with GUIDs that count as installed beside those that are.
    pub fn holds_with(&self, ops: &[Op], also: impl Fn(&Guid) -> bool) -> bool {
        holds(ops, |guid| self.is_installed(guid) || also(guid))
    }

    pub fn came(&mut self, guid: Guid) {
        let count = self.installed.entry(guid).or_default();
        *count += 1;
        if *count == 1 {
            self.changed.push(guid);
        }
    }

    pub fn went(&mut self, guid: Guid) {
        let count = self.installed.get_mut(&guid).unwrap();
        *count -= 1;
        if *count == 0 {
            self.changed.push(guid);
        }
    }

    /// The places whose expressions may have changed since the last time.
    pub fn stale(&mut self) -> Vec<usize> {
        let mut changed = std::mem::take(&mut self.changed);
        changed.sort_unstable();
        changed.dedup();
        let mut places: Vec<usize> = changed.iter().filter_map(|guid| self.pushed_by.get(guid)).flatten().copied().collect();
        places.sort_unstable();
        places.dedup();
        places
    }
}
