//! A second reading of document 01 and of the requests for rule texts, for counts between
//! two bounds, for events that cannot happen, for a desk of many tunnels, for recordings with
//! gaps and for states of several tables, written apart from the watcher: readers, a search for
//! traces, a builder of tables, a desk and the laws of its histories, two recordings joined,
//! openings with numbers and their law, and the maker of the test vectors.

pub mod builder;
pub mod certify;
pub mod counted;
pub mod desk;
pub mod history;
pub mod lasso;
pub mod mask;
pub mod openings;
pub mod prints;
pub mod random_masks;
pub mod random_recordings;
pub mod random_rules;
pub mod record;
pub mod recordings;
pub mod refusal;
pub mod rng;
pub mod rule;
pub mod rule_text;
pub mod search;
pub mod table;
pub mod vectors;
pub mod writes;
