//! The limits and sizes of document 01, each in one place.

/// Symbols of a table, 1 to this many.
pub const SYMBOLS: usize = 32;
/// Rules of a table, 1 to this many.
pub const RULES: usize = 64;
/// Attributes of a symbol.
pub const ATTRIBUTES: usize = 8;
/// Symbols on the right side of a rule.
pub const RIGHT: usize = 7;
/// Functions of a rule.
pub const FUNCTIONS: usize = 64;
/// Occurrences of a rule: attribute a at position i is `ATTRIBUTES * i + a`.
pub const OCCURRENCES: usize = ATTRIBUTES * (RIGHT + 1);
/// Constants of operation 0.
pub const CONSTANTS: std::ops::RangeInclusive<i64> = -32_768..=32_767;

/// Words before the symbols: how many symbols, how many rules, the start symbol.
pub const HEAD: usize = 3;
/// Words of a symbol: kind, attribute count, mask.
pub const SYMBOL: usize = 3;

/// Rows of a rule in the lent rows.
pub const ROWS: usize = 64;
/// Words of the plan before the sequences: the set numbers of 32 symbols.
pub const PLAN_SETS: usize = ATTRIBUTES * SYMBOLS;
/// Words of the plan for a rule: the length, the actions, zeros.
pub const PLAN_RULE: usize = 112;

/// The first visit action, and the first leave action; below them an action is the compute of an occurrence.
pub const FIRST_VISIT: usize = 64;
pub const FIRST_LEAVE: usize = 128;

/// The bytes of a file of words that are looked at, as the listing program does.
pub const LOOKED_AT: usize = 65_536;
/// The bytes of a text that are read. Document 01 has no such limit: it is here so that an endless file ends.
pub const TEXT: usize = 4 * 1024 * 1024;
