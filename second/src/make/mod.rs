//! Makes framed cases: first a fixed list, then random ones by seed.

mod call;
pub mod case;
mod list_call;
mod list_cuts;
mod list_front;
mod list_lengths;
mod list_listing;
mod list_long;
mod list_methods;
mod list_old_writes;
mod list_results;
mod list_rows;
mod list_shown_names;
mod list_shown_replies;
mod list_shown_requests;
mod list_table_enter;
mod list_table_refused;
mod list_table_reply;
mod list_table_sound;
mod list_text;
mod list_text_ends;
mod list_text_fields;
mod list_text_long;
mod list_text_places;
mod list_text_small;
mod list_types;
mod list_write_names;
mod list_write_path_orders;
mod list_write_paths;
mod list_write_replies;
mod list_write_requests;
mod prng;
mod put;
mod random;
mod random_messages;
mod random_replies;
mod random_shown;
mod random_table;
mod random_values;
mod random_writers;
mod strings;
mod styles;
mod tables;
mod writes;

use std::collections::HashSet;

use case::Case;
use prng::Prng;

/// The cases of some ops that every run begins with, whatever its seed, each
/// once.
pub fn fixed_list(ops: &str) -> Vec<Case> {
    let mut out = Vec::new();
    list_rows::add(&mut out);
    list_types::add(&mut out);
    list_methods::add(&mut out);
    list_cuts::add(&mut out);
    list_lengths::add(&mut out);
    list_listing::add(&mut out);
    list_text::add(&mut out);
    list_text_places::add(&mut out);
    list_text_ends::add(&mut out);
    list_text_fields::add(&mut out);
    list_text_long::add(&mut out);
    list_results::add(&mut out);
    list_long::add(&mut out);
    list_write_requests::add(&mut out);
    list_write_replies::add(&mut out);
    list_write_names::add(&mut out);
    list_front::add(&mut out);
    list_table_sound::add(&mut out);
    list_table_enter::add(&mut out);
    list_table_reply::add(&mut out);
    list_table_refused::add(&mut out);
    list_shown_requests::add(&mut out);
    list_shown_replies::add(&mut out);
    list_shown_names::add(&mut out);
    list_call::add(&mut out);
    list_text_small::add(&mut out);
    list_write_paths::add(&mut out);
    list_write_path_orders::add(&mut out);
    list_old_writes::add(&mut out);
    let mut met = HashSet::new();
    out.retain(|case| ops.contains(char::from(case.op)) && met.insert(case.framed()));
    out
}

/// The ops of a run that names none.
pub const OPS: &str = "qplfwurdxcegt";

/// The ops that a run has only where they are named.
pub const NAMED_OPS: &str = "so";

/// Some ops, and no other letter.
pub fn known_ops(ops: &str) -> bool {
    !ops.is_empty() && ops.chars().all(|op| NAMED_OPS.contains(op) || OPS.contains(op))
}

type Maker = fn(&mut Prng) -> Case;

/// The ops with a maker of their own, and how many of a hundred cases it makes
/// where the op is asked for. A run that does not ask for the op has the same
/// cases as without the maker.
const OWN_MAKERS: [(char, usize, Maker); 3] =
    [('s', 50, random_shown::case), ('o', 50, random_table::one), ('t', 10, random_table::several)];

/// The cases of one run, without end, of some ops.
pub struct Cases {
    fixed: std::vec::IntoIter<Case>,
    prng: Prng,
    ops: String,
}

impl Cases {
    pub fn new(seed: u64) -> Cases {
        Cases::of(seed, OPS)
    }

    /// The fixed list, then cases that follow from the seed.
    pub fn of(seed: u64, ops: &str) -> Cases {
        Cases::behind(fixed_list(ops), seed, ops)
    }

    /// The cases that follow from the seed, without the fixed list.
    pub fn fresh(seed: u64, ops: &str) -> Cases {
        Cases::behind(Vec::new(), seed, ops)
    }

    fn behind(fixed: Vec<Case>, seed: u64, ops: &str) -> Cases {
        assert!(known_ops(ops));
        Cases { fixed: fixed.into_iter(), prng: Prng::new(seed), ops: ops.to_string() }
    }

    /// A case that follows from the seed, of any op.
    fn random(&mut self) -> Case {
        for (op, share, make) in OWN_MAKERS {
            if self.ops.contains(op) && self.prng.chance(share) {
                return make(&mut self.prng);
            }
        }
        random::case(&mut self.prng)
    }
}

impl Iterator for Cases {
    type Item = Case;

    fn next(&mut self) -> Option<Case> {
        loop {
            let fixed = self.fixed.next();
            let case = fixed.unwrap_or_else(|| self.random());
            if self.ops.contains(char::from(case.op)) {
                return Some(case);
            }
        }
    }
}
