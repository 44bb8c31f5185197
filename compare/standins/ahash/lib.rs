//! Stand-in for `ahash`: the map of the standard library.

pub type AHashMap<K, V> = std::collections::HashMap<K, V>;
