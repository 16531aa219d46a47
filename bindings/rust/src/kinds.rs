//! The rules and the changes, by number and name.

use crate::raw;
use std::fmt;
use std::os::raw::c_char;
use std::str::FromStr;

/// A rule by which instructions are rewritten.
///
/// ```
/// let rule: teddertempo::Rule = "commute".parse().unwrap();
/// assert_eq!(rule.name(), "commute");
/// ```
#[derive(Clone, Copy, Debug, PartialEq, Eq, PartialOrd, Ord, Hash)]
pub struct Rule(pub(crate) u32);

/// A change of an operator and of what comes right before it. A value is an operator with its operands; a statement is code that pushes no
/// value.
#[derive(Clone, Copy, Debug, PartialEq, Eq, PartialOrd, Ord, Hash)]
pub struct Change(pub(crate) u32);

/// No rule has the name.
#[derive(Clone, Copy, Debug, PartialEq, Eq)]
pub struct NoSuchRule;

/// The name that a call of the library writes.
fn name_by(
    call: unsafe extern "C" fn(u32, *mut c_char, usize) -> usize,
    number: u32,
) -> Option<String> {
    // SAFETY: the call is one of the two of the header that write a name. The pointer is that of a byte; no byte is written.
    let length = unsafe { call(number, [0].as_mut_ptr(), 0) };
    let mut name = vec![0_u8; length];
    // SAFETY: as above; the room is that of the vector, whose pointer isn't null even if that is 0.
    unsafe { call(number, name.as_mut_ptr().cast(), length) };
    (length != 0).then(|| String::from_utf8_lossy(&name).into_owned())
}

impl Rule {
    /// All rules.
    pub fn all() -> impl Iterator<Item = Rule> {
        // SAFETY: the declaration is the header's.
        let count = unsafe { raw::teddertempo_rule_count() };
        (0..)
            .map(Rule)
            .take_while(move |rule| u64::from(rule.0) < count)
    }

    /// Its name, such as `commute`.
    #[must_use]
    pub fn name(self) -> String {
        name_by(raw::teddertempo_rule_name, self.0).unwrap_or_default()
    }
}

impl Change {
    /// A constant becomes another constant of the same type.
    pub const CONSTANT: Change = Change(0);
    /// An operator becomes another operator of the same types.
    pub const OPERATOR: Change = Change(1);
    /// An access to a local becomes an access to another local of the same type.
    pub const LOCAL: Change = Change(2);
    /// A value is drawn anew: a constant, a local, a global, or operators on such.
    pub const DRAW: Change = Change(3);
    /// A value, or a statement, becomes a copy of another one.
    pub const COPY: Change = Change(4);
    /// The first of two operands replaces the value.
    pub const FIRST_OPERAND: Change = Change(5);
    /// The only operand, or the second one, replaces the value.
    pub const LAST_OPERAND: Change = Change(6);
    /// Two operands of the same type are exchanged.
    pub const EXCHANGE_OPERANDS: Change = Change(7);
    /// A statement is deleted.
    pub const DELETE: Change = Change(8);
    /// A statement is doubled.
    pub const DOUBLE: Change = Change(9);
    /// A statement is exchanged with the one right before it.
    pub const EXCHANGE_STATEMENTS: Change = Change(10);
    /// A global that is read becomes another global of the same type.
    pub const GLOBAL: Change = Change(11);
    /// A function that is called becomes another function of the same type.
    pub const CALL: Change = Change(12);
    /// A load or a store gets another offset, and an alignment that is no greater.
    pub const MEMORY_ARGUMENT: Change = Change(13);

    /// All changes.
    pub fn all() -> impl Iterator<Item = Change> {
        (0..)
            .map(Change)
            .take_while(|change| change.found().is_some())
    }

    fn found(self) -> Option<String> {
        name_by(raw::teddertempo_change_name, self.0)
    }

    /// Its name, such as `constant` or `first_operand`.
    #[must_use]
    pub fn name(self) -> String {
        self.found().unwrap_or_default()
    }
}

impl FromStr for Rule {
    type Err = NoSuchRule;

    fn from_str(name: &str) -> Result<Rule, NoSuchRule> {
        // SAFETY: the declaration is the header's. The pointer is that of a text, whose length is passed and which isn't null even if
        // that is 0; it is only read.
        let number = unsafe { raw::teddertempo_rule_number(name.as_ptr().cast(), name.len()) };
        u32::try_from(number).map(Rule).map_err(|_| NoSuchRule)
    }
}

impl fmt::Display for Rule {
    fn fmt(&self, f: &mut fmt::Formatter<'_>) -> fmt::Result {
        f.pad(&self.name())
    }
}

impl fmt::Display for Change {
    fn fmt(&self, f: &mut fmt::Formatter<'_>) -> fmt::Result {
        f.pad(&self.name())
    }
}

impl fmt::Display for NoSuchRule {
    fn fmt(&self, f: &mut fmt::Formatter<'_>) -> fmt::Result {
        f.pad("no rule has that name")
    }
}

impl std::error::Error for NoSuchRule {}
