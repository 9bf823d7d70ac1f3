//! The store: entries in ascending byte order of keys, with a bounded sum of charges.

use std::collections::BTreeMap;

/// The most entries that a store holds.
pub const ENTRY_LIMIT: usize = 1_024;

#[derive(Clone, Debug)]
pub struct Store {
    entries: BTreeMap<Vec<u8>, Vec<u8>>,
    /// The sum of the entries' charges.
    used: usize,
    room: usize,
}

/// What an entry charges.
pub fn charge(key: &[u8], value: &[u8]) -> usize {
    8 + key.len() + value.len()
}

impl Store {
    pub fn new(room: usize) -> Store {
        Store {
            entries: BTreeMap::new(),
            used: 0,
            room,
        }
    }

    pub fn get(&self, key: &[u8]) -> Option<&[u8]> {
        self.entries.get(key).map(Vec::as_slice)
    }

    /// The entries in store order.
    pub fn entries(&self) -> impl Iterator<Item = (&[u8], &[u8])> {
        self.entries
            .iter()
            .map(|(key, value)| (key.as_slice(), value.as_slice()))
    }

    /// The number of entries.
    pub fn count(&self) -> usize {
        self.entries.len()
    }

    /// The sum of the entries' charges.
    pub fn used(&self) -> usize {
        self.used
    }

    /// Whether the store with this key set to this value keeps its limits.
    pub fn has_room(&self, key: &[u8], value: &[u8]) -> bool {
        let (old_charge, old_count) = match self.get(key) {
            Some(old) => (charge(key, old), 1),
            None => (0, 0),
        };
        self.used - old_charge + charge(key, value) <= self.room
            && self.entries.len() - old_count < ENTRY_LIMIT
    }

    /// Sets the key to the value, or deletes it, and gives what was there before. The caller
    /// has asked for room.
    pub fn set(&mut self, key: &[u8], value: Option<Vec<u8>>) -> Option<Vec<u8>> {
        let old = match value {
            Some(value) => {
                self.used += charge(key, &value);
                self.entries.insert(key.to_vec(), value)
            }
            None => self.entries.remove(key),
        };
        if let Some(old) = &old {
            self.used -= charge(key, old);
        }
        old
    }
}
