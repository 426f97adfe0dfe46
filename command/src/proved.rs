//! The proved code, called through its C function (`examples/skarnuth.h`). Whatever this command says of a plan, a set, a sequence or a
//! refusal comes from here.

use crate::limits;

extern "C" {
    fn skarnuth_plan(
        words: *const u16,
        words_count: usize,
        rows: *mut u64,
        rows_count: usize,
        plan: *mut u16,
        plan_count: usize,
        count: &mut u64,
        number: &mut u64,
        place: &mut u64,
        second: &mut u64,
    ) -> u32;
}

/// The status of a plan that is accepted; the only other one of planning is a refusal.
const ACCEPTED: u32 = 0;
/// The refusal for lent buffers that are too short.
const TOO_SHORT: u64 = 8;

/// A refusal: document 01's number, place and second place.
#[derive(Debug, Clone, Copy, PartialEq, Eq)]
pub struct Refusal {
    pub number: u64,
    pub place: usize,
    pub second: usize,
}

impl std::fmt::Display for Refusal {
    fn fmt(&self, f: &mut std::fmt::Formatter) -> std::fmt::Result {
        write!(f, "refused {} {} {}", self.number, self.place, self.second)
    }
}

/// What planning answers, and what it leaves in the rows and in the plan.
pub struct Planned {
    pub refusal: Option<Refusal>,
    pub rows: Vec<u64>,
    pub plan: Vec<u16>,
}

impl Planned {
    /// Whether a path of one arc or more leads from one occurrence of a rule to another: the bit that the proved code left.
    pub fn path(&self, rule: usize, from: usize, to: usize) -> bool {
        to < limits::OCCURRENCES && self.rows.get(limits::ROWS * rule + from).is_some_and(|row| row >> to & 1 == 1)
    }

    /// The set number of an attribute; 0 for a terminal's.
    pub fn set(&self, symbol: usize, attribute: usize) -> u16 {
        self.plan.get(limits::ATTRIBUTES * symbol + attribute).copied().unwrap_or(0)
    }

    /// The actions of a rule, in order.
    pub fn sequence(&self, rule: usize) -> &[u16] {
        let at = limits::PLAN_SETS + limits::PLAN_RULE * rule;
        let length = self.plan.get(at).map_or(0, |&n| n as usize);
        self.plan.get(at + 1..at + 1 + length).unwrap_or(&[])
    }
}

/// Plans, in buffers that have room for every table.
pub fn plan(words: &[u16]) -> Planned {
    let mut rows = vec![0; limits::ROWS * limits::RULES];
    let mut plan = vec![0; limits::PLAN_SETS + limits::PLAN_RULE * limits::RULES];
    let refusal = called(words, &mut rows, &mut plan);
    Planned { refusal, rows, plan }
}

/// The proved reader alone: with no buffers at all planning ends in 8 at 0 exactly where the words are a good table, and in 1 to 7 elsewhere.
pub fn read(words: &[u16]) -> Result<(), Refusal> {
    match called(words, &mut [], &mut []) {
        Some(Refusal { number: TOO_SHORT, place: 0, second: 0 }) => Ok(()),
        Some(refusal) => Err(refusal),
        None => Ok(()),
    }
}

fn called(words: &[u16], rows: &mut [u64], plan: &mut [u16]) -> Option<Refusal> {
    let (mut count, mut number, mut place, mut second) = (0, 0, 0, 0);
    // The slices are whole and not shared, which is all that the function relies on.
    let status = unsafe {
        skarnuth_plan(
            words.as_ptr(),
            words.len(),
            rows.as_mut_ptr(),
            rows.len(),
            plan.as_mut_ptr(),
            plan.len(),
            &mut count,
            &mut number,
            &mut place,
            &mut second,
        )
    };
    (status != ACCEPTED).then_some(Refusal { number, place: place as usize, second: second as usize })
}
