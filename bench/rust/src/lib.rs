//! This library and the Rust crate `winnow` side by side. The program `measure` times both, `agree` compares their answers.

pub mod inputs;
pub mod our_accumulators;
pub mod our_bits;
pub mod our_errors;
pub mod our_feeds;
pub mod our_searches;
pub mod our_trees;
pub mod ours;
pub mod script;
pub mod their_accumulators;
pub mod their_bits;
pub mod their_errors;
pub mod their_feeds;
pub mod their_gathered;
pub mod their_kinds;
#[cfg(winnow_hooks)]
pub mod their_parse_errors;
pub mod their_recovered;
pub mod their_search_runs;
pub mod their_searches;
pub mod their_sets;
pub mod their_trees;
pub mod their_wrappers;
pub mod theirs;
