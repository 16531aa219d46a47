//! What a call does.

use crate::raw::{self, Rules};
use crate::{Change, Error, Rule};
use std::ops::{Bound, RangeBounds};

/// Which rewrites are made: by default one, by any rule in any function, of any size, under the seed 0.
///
/// ```
/// use teddertempo::Options;
/// let options = Options::new().seed(7).count(3).rule("commute".parse().unwrap());
/// ```
#[derive(Clone, Debug, Default, PartialEq, Eq)]
pub struct Options {
    // Without its rules.
    raw: raw::Options,
    // A bit for each rule; none if no rule was named.
    rules: Option<Rules>,
}

/// Which changes are made: by default one, any of them, in any function, of any size, under the seed 0.
///
/// ```
/// use teddertempo::{Change, ChangeOptions};
/// let options = ChangeOptions::new().seed(7).count(3).change(Change::CONSTANT);
/// ```
#[derive(Clone, Debug, Default, PartialEq, Eq)]
pub struct ChangeOptions {
    raw: raw::ChangeOptions,
}

/// Operators of a function, and a change of them: by default all operators.
///
/// ```
/// use teddertempo::{Change, Place};
/// let place = Place::new(Change::DELETE, 2).operators(10..20);
/// ```
#[derive(Clone, Debug, PartialEq, Eq)]
pub struct Place {
    raw: raw::Place,
}

/// The bit of a rule, and its word; none if there is no such word.
fn bit(rules: &mut Rules, rule: Rule) -> Option<(&mut u64, u64)> {
    let word = rules.get_mut(usize::try_from(rule.0 / 64).ok()?)?;
    Some((word, 1 << (rule.0 % 64)))
}

/// The bits of all rules.
fn all_rules() -> Rules {
    let mut rules = Rules::default();
    for rule in Rule::all() {
        if let Some((word, bit)) = bit(&mut rules, rule) {
            *word |= bit;
        }
    }
    rules
}

/// Sets how many bytes the module may grow by: a growth of 0 is a flag.
fn set_growth(growth: &mut u64, flags: &mut u64, bytes: u64) {
    *growth = bytes;
    *flags &= !raw::NO_GROWTH;
    if bytes == 0 {
        *flags |= raw::NO_GROWTH;
    }
}

impl Options {
    /// The default.
    #[must_use]
    pub fn new() -> Options {
        Options::default()
    }

    /// The seed of the generator that chooses functions, rules and places. Equal modules and options give equal bytes.
    #[must_use]
    pub fn seed(mut self, seed: u64) -> Options {
        self.raw.seed = seed;
        self
    }

    /// Only this rule, and others that are named by further calls.
    #[must_use]
    pub fn rule(mut self, rule: Rule) -> Options {
        if let Some((word, bit)) = bit(self.rules.get_or_insert_with(Rules::default), rule) {
            *word |= bit;
        }
        self
    }

    /// Not this rule, nor others that are named by further calls.
    #[must_use]
    pub fn not_rule(mut self, rule: Rule) -> Options {
        if let Some((word, bit)) = bit(self.rules.get_or_insert_with(all_rules), rule) {
            *word &= !bit;
        }
        self
    }

    /// Only the function with this index, imported ones counted first.
    #[must_use]
    pub fn function(mut self, function: u64) -> Options {
        self.raw.only = function.saturating_add(1);
        self
    }

    /// So many consecutive rewrites; 0 counts as 1. Fewer are made if no rule applies any more.
    #[must_use]
    pub fn count(mut self, count: u64) -> Options {
        self.raw.count = count;
        self
    }

    /// As many rewrites as this percentage of the operators of the functions that may be rewritten and can be read, but at least one. It
    /// replaces the count, unless it is 0.
    #[must_use]
    pub fn percent(mut self, percent: u64) -> Options {
        self.raw.percent = percent;
        self
    }

    /// The new module has at most so many bytes more than the old one.
    #[must_use]
    pub fn growth(mut self, bytes: u64) -> Options {
        set_growth(&mut self.raw.growth, &mut self.raw.flags, bytes);
        self
    }

    /// Rules on floats, vectors and memories too: the new module behaves as before in every engine that implements these as the standard
    /// specifies. No other thread writes the module's memories.
    #[must_use]
    pub fn exact(mut self) -> Options {
        self.raw.flags |= raw::EXACT;
        self
    }

    /// Only rewrites that make the module smaller: they leave no more operators, and fewer bytes, or as many that come earlier in the
    /// dictionary. If no rewrite that the seed draws does, the error is [`Error::TooLarge`] or [`Error::NothingApplies`].
    #[must_use]
    pub fn shrink(mut self) -> Options {
        self.raw.flags |= raw::SHRINK;
        self
    }

    /// As the library reads them; an error if no rule is left, which the library would take for all rules.
    pub(crate) fn raw(&self) -> Result<raw::Options, Error> {
        if self.rules == Some(Rules::default()) {
            return Err(Error::BadOptions);
        }
        Ok(raw::Options {
            rules: self.rules.unwrap_or_default(),
            ..self.raw.clone()
        })
    }
}

impl ChangeOptions {
    /// The default.
    #[must_use]
    pub fn new() -> ChangeOptions {
        ChangeOptions::default()
    }

    /// The seed of the generator that chooses functions, changes and places. Equal modules and options give equal bytes.
    #[must_use]
    pub fn seed(mut self, seed: u64) -> ChangeOptions {
        self.raw.seed = seed;
        self
    }

    /// Only this change, and others that are named by further calls.
    #[must_use]
    pub fn change(mut self, change: Change) -> ChangeOptions {
        self.raw.changes |= 1_u64.checked_shl(change.0).unwrap_or(0);
        self
    }

    /// Only the function with this index, imported ones counted first.
    #[must_use]
    pub fn function(mut self, function: u64) -> ChangeOptions {
        self.raw.only = function.saturating_add(1);
        self
    }

    /// So many consecutive changes; 0 counts as 1. Fewer are made if nothing more can be changed.
    #[must_use]
    pub fn count(mut self, count: u64) -> ChangeOptions {
        self.raw.count = count;
        self
    }

    /// The new module has at most so many bytes more than the old one.
    #[must_use]
    pub fn growth(mut self, bytes: u64) -> ChangeOptions {
        set_growth(&mut self.raw.growth, &mut self.raw.flags, bytes);
        self
    }

    /// As the library reads them.
    pub(crate) fn raw(&self) -> &raw::ChangeOptions {
        &self.raw
    }
}

impl Place {
    /// All operators of the function with that index, imported ones counted first.
    #[must_use]
    pub fn new(change: Change, function: u64) -> Place {
        Place {
            raw: raw::Place {
                change: change.0.into(),
                function,
                ..raw::Place::default()
            },
        }
    }

    /// Only these operators of its body, counted from 0, ends of blocks too.
    #[must_use]
    pub fn operators(mut self, operators: impl RangeBounds<u64>) -> Place {
        let first = match operators.start_bound() {
            Bound::Included(first) => *first,
            Bound::Excluded(before) => before.saturating_add(1),
            Bound::Unbounded => 0,
        };
        let end = match operators.end_bound() {
            Bound::Included(last) => last.saturating_add(1),
            Bound::Excluded(end) => *end,
            Bound::Unbounded => u64::MAX,
        };
        // The library takes an end of 0 for that of the body.
        let range = if end == 0 { (1, 1) } else { (first, end) };
        (self.raw.first, self.raw.end) = range;
        self
    }

    /// The new module has at most so many bytes more than the old one.
    #[must_use]
    pub fn growth(mut self, bytes: u64) -> Place {
        set_growth(&mut self.raw.growth, &mut self.raw.flags, bytes);
        self
    }

    /// As the library reads it.
    pub(crate) fn raw(&self) -> &raw::Place {
        &self.raw
    }
}
