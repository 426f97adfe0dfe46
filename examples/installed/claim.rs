//! Which of two sources is claimed? Reads the words of examples/sources.table on standard input and runs them for some priorities.
//! With the installed files, PREFIX being where they are:
//! rustc claim.rs -L PREFIX/lib && skarnuth words sources.table | ./claim

use std::io::Read;

#[link(name = "skarnuth", kind = "static")]
extern "C" {
    fn skarnuth_run(
        words: *const u16, words_count: usize,
        rows: *mut u64, rows_count: usize,
        plan: *mut u16, plan_count: usize,
        tree: *const u16, tree_count: usize,
        values: *mut i32, values_count: usize,
        budget: u32,
        count: &mut u64, number: &mut u64, place: &mut u64, second: &mut u64,
    ) -> u32;
}

/// A node has 8 words: its rule, or 32768 + its symbol for a terminal, then its children.
const TREE: [u16; 48] = [
    0, 1, 2, 4, 0, 0, 0, 0, // node 0: controller = level source source
    32770, 0, 0, 0, 0, 0, 0, 0, // node 1: level, symbol 2
    1, 3, 0, 0, 0, 0, 0, 0, // node 2: source = line
    32771, 0, 0, 0, 0, 0, 0, 0, // node 3: line, symbol 3
    1, 5, 0, 0, 0, 0, 0, 0, // node 4: source = line
    32771, 0, 0, 0, 0, 0, 0, 0, // node 5: line
];

fn main() -> std::io::Result<()> {
    let mut bytes = Vec::new();
    std::io::stdin().read_to_end(&mut bytes)?;
    let words: Vec<u16> = bytes.chunks_exact(2).map(|pair| u16::from_le_bytes([pair[0], pair[1]])).collect();
    let rules = words.get(1).map_or(0, |&n| n as usize);
    let (mut rows, mut plan) = (vec![0u64; 64 * rules], vec![0u16; 256 + 112 * rules]);
    for (first, second, threshold) in [(3, 5, 2), (5, 5, 2), (1, 2, 2)] {
        let mut values = [0i32; TREE.len()];
        (values[8 * 3], values[8 * 5], values[8]) = (first, second, threshold);
        let mut told = [0u64; 4];
        let [count, number, place, other] = &mut told;
        // The buffers are whole and do not overlap.
        let status = unsafe {
            skarnuth_run(
                words.as_ptr(), words.len(),
                rows.as_mut_ptr(), rows.len(),
                plan.as_mut_ptr(), plan.len(),
                TREE.as_ptr(), TREE.len(),
                values.as_mut_ptr(), values.len(),
                u32::MAX,
                count, number, place, other,
            )
        };
        if status != 0 {
            eprintln!("refused {} {} {}", told[1], told[2], told[3]);
            std::process::exit(1);
        }
        println!("priorities {first} and {second}, threshold {threshold}: claim {}", values[1]);
    }
    Ok(())
}
