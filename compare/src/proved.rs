//! The proved code, called through its C functions, with the same signatures as the independent implementation.

use crate::{Ran, Refusal};

extern "C" {
    fn skarnuth_plan(
        words: *const u16,
        words_count: usize,
        rows: *mut u64,
        rows_count: usize,
        plan: *mut u16,
        plan_count: usize,
        count: &mut u64,
        number: &mut u64,
        place: &mut u64,
        second: &mut u64,
    ) -> u32;

    fn skarnuth_run(
        words: *const u16,
        words_count: usize,
        rows: *mut u64,
        rows_count: usize,
        plan: *mut u16,
        plan_count: usize,
        tree: *const u16,
        tree_count: usize,
        values: *mut i32,
        values_count: usize,
        budget: u32,
        count: &mut u64,
        number: &mut u64,
        place: &mut u64,
        second: &mut u64,
    ) -> u32;
}

const REFUSED: u32 = 2;

/// The four numbers beside a status. They start as something that no answer is, so that one left unwritten shows.
struct Told {
    count: u64,
    number: u64,
    place: u64,
    second: u64,
}

impl Told {
    fn new() -> Self {
        Told { count: u64::MAX, number: u64::MAX, place: u64::MAX, second: u64::MAX }
    }

    fn refusal(&self) -> Refusal {
        assert_eq!(self.count, 0, "a refusal has no count");
        Refusal { number: self.number as u32, place: self.place as usize, second: self.second as usize }
    }

    fn counted(&self) -> u64 {
        assert_eq!((self.number, self.place, self.second), (0, 0, 0), "no number and no places without a refusal");
        self.count
    }
}

/// Plans a grammar: the size of the plan, or a refusal.
pub fn plan(words: &[u16], rows: &mut [u64], plan: &mut [u16]) -> Result<usize, Refusal> {
    let mut t = Told::new();
    // The slices are whole and not shared, which is all that the functions rely on.
    let status = unsafe {
        skarnuth_plan(
            words.as_ptr(),
            words.len(),
            rows.as_mut_ptr(),
            rows.len(),
            plan.as_mut_ptr(),
            plan.len(),
            &mut t.count,
            &mut t.number,
            &mut t.place,
            &mut t.second,
        )
    };
    match status {
        0 => Ok(t.counted() as usize),
        REFUSED => Err(t.refusal()),
        other => panic!("status {other} of skarnuth_plan"),
    }
}

/// Plans, checks the tree, and runs for at most `budget` actions.
pub fn run(
    words: &[u16],
    rows: &mut [u64],
    plan: &mut [u16],
    tree: &[u16],
    values: &mut [i32],
    budget: u32,
) -> Result<Ran, Refusal> {
    let mut t = Told::new();
    // As above.
    let status = unsafe {
        skarnuth_run(
            words.as_ptr(),
            words.len(),
            rows.as_mut_ptr(),
            rows.len(),
            plan.as_mut_ptr(),
            plan.len(),
            tree.as_ptr(),
            tree.len(),
            values.as_mut_ptr(),
            values.len(),
            budget,
            &mut t.count,
            &mut t.number,
            &mut t.place,
            &mut t.second,
        )
    };
    match status {
        0 => Ok(Ran::Done(t.counted() as u32)),
        1 => Ok(Ran::Stopped(t.counted() as u32)),
        REFUSED => Err(t.refusal()),
        other => panic!("status {other} of skarnuth_run"),
    }
}
