//! Enough of a map from ranges: disjoint ranges in a list.

use std::ops::Range;

#[derive(Debug)]
pub struct RangeMap<K, V>(Vec<(Range<K>, V)>);

impl<K: PartialOrd, V> RangeMap<K, V> {
    #[allow(clippy::new_without_default)]
    pub fn new() -> Self {
        RangeMap(Vec::new())
    }

    pub fn insert(&mut self, range: Range<K>, value: V) {
        self.0.push((range, value));
    }

    pub fn get(&self, key: &K) -> Option<&V> {
        let found = self.0.iter().find(|(range, _)| range.contains(key));
        found.map(|(_, value)| value)
    }
}
