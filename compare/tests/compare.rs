//! The proved code against the independent implementation: answers and every word of every buffer, on seeded cases.

use independent::cases::{
    budgets, case, crossed_at_full_size, dense, five_visits, five_visits_tree, lines, longest, longest_cyclic, many_rounds, table, variations, Case, Rng, Table, G,
};
use independent::plan::visits;
use independent::shrink::shrink;
use independent::{plan, proved, run, Ran, Refusal, NUMBERS};
use std::fmt::Write;
use std::time::Instant;

/// Random cases, and sound ones of which every word and length is varied.
const RANDOM: u64 = 400_000;
const VARIED: u64 = 24;
/// A refusal that is hit less often than this is not tested.
const LEAST: u64 = 50;

/// Words before and after a lent buffer, which nobody may touch.
const GUARD: usize = 8;
const GUARD_WORD: u64 = 0x1d1e_5afe_1d1e_5afe;

/// A copy of lent words between guards.
struct Guarded<T> {
    words: Vec<T>,
    guard: T,
}

impl<T: Copy + PartialEq> Guarded<T> {
    fn new(words: &[T], guard: T) -> Self {
        Guarded { words: [&[guard; GUARD], words, &[guard; GUARD]].concat(), guard }
    }

    fn lent(&mut self) -> &mut [T] {
        let end = self.words.len() - GUARD;
        &mut self.words[GUARD..end]
    }

    fn first_difference(&self, other: &[T]) -> Option<usize> {
        let end = self.words.len() - GUARD;
        assert!(self.words[..GUARD].iter().chain(&self.words[end..]).all(|&w| w == self.guard), "something outside a lent buffer was written");
        self.words[GUARD..end].iter().zip(other).position(|(a, b)| a != b)
    }
}

/// What a run answered, on both sides alike, or what differs.
fn compare(c: &Case) -> Result<Result<Ran, Refusal>, String> {
    let (mut rows, mut words) = (c.rows.clone(), c.plan.clone());
    let (mut our_rows, mut our_words) = (Guarded::new(&c.rows, GUARD_WORD), Guarded::new(&c.plan, GUARD_WORD as u16));
    let planned = plan(&c.words, &mut rows, &mut words);
    let ours = proved::plan(&c.words, our_rows.lent(), our_words.lent());
    if ours != planned {
        return Err(format!("plan answers {ours:?}, the independent one {planned:?}"));
    }
    if let Some(i) = our_rows.first_difference(&rows) {
        return Err(format!("plan leaves another row at {i}"));
    }
    if let Some(i) = our_words.first_difference(&words) {
        return Err(format!("plan leaves another plan word at {i}"));
    }
    // The run starts from the buffers as they were found.
    (rows, words) = (c.rows.clone(), c.plan.clone());
    (our_rows, our_words) = (Guarded::new(&c.rows, GUARD_WORD), Guarded::new(&c.plan, GUARD_WORD as u16));
    let mut values = c.values.clone();
    let mut our_values = Guarded::new(&c.values, GUARD_WORD as i32);
    let ran = run(&c.words, &mut rows, &mut words, &c.tree, &mut values, c.budget);
    let ours = proved::run(&c.words, our_rows.lent(), our_words.lent(), &c.tree, our_values.lent(), c.budget);
    if ours != ran {
        return Err(format!("run answers {ours:?}, the independent one {ran:?}"));
    }
    if let Some(i) = our_rows.first_difference(&rows) {
        return Err(format!("run leaves another row at {i}"));
    }
    if let Some(i) = our_words.first_difference(&words) {
        return Err(format!("run leaves another plan word at {i}"));
    }
    if let Some(i) = our_values.first_difference(&values) {
        return Err(format!("run leaves another value at {i}"));
    }
    Ok(ran)
}

/// What the cases reached.
#[derive(Default)]
struct Seen {
    cases: u64,
    refused: [u64; 19],
    done: u64,
    stopped: u64,
    /// Accepted tables: by rule length, by attribute count, with 64 rules, not reduced.
    lengths: [u64; 8],
    attributes: [u64; 9],
    full: u64,
    unreduced: u64,
    /// Their nonterminals, by visits.
    visits: [u64; 6],
    longest: u32,
}

impl Seen {
    fn add(&mut self, o: &Seen) {
        self.cases += o.cases;
        self.refused.iter_mut().zip(o.refused).for_each(|(a, b)| *a += b);
        self.done += o.done;
        self.stopped += o.stopped;
        self.lengths.iter_mut().zip(o.lengths).for_each(|(a, b)| *a += b);
        self.attributes.iter_mut().zip(o.attributes).for_each(|(a, b)| *a += b);
        self.full += o.full;
        self.unreduced += o.unreduced;
        self.visits.iter_mut().zip(o.visits).for_each(|(a, b)| *a += b);
        self.longest = self.longest.max(o.longest);
    }

    fn case(&mut self, name: impl Fn() -> String, c: &Case) -> Result<Ran, Refusal> {
        self.cases += 1;
        let ran = compare(c).unwrap_or_else(|fault| report(&name(), c, &fault));
        match ran {
            Ok(Ran::Done(n)) => {
                self.done += 1;
                self.longest = self.longest.max(n);
            }
            Ok(Ran::Stopped(_)) => self.stopped += 1,
            Err(r) => self.refused[r.number as usize] += 1,
        }
        ran
    }

    fn random(&mut self, seed: u64) {
        let c = case(seed);
        let ran = self.case(|| format!("seed {seed}"), &c);
        if !matches!(ran, Err(r) if r.number < 12) {
            let t = table(&mut Rng::new(seed));
            if t.words() == c.words {
                self.count_visits(&t);
                t.rules.iter().for_each(|r| self.lengths[r.symbols.len() - 1] += 1);
                t.symbols.iter().for_each(|s| self.attributes[s.1] += 1);
                self.full += (t.rules.len() == 64) as u64;
                self.unreduced += !t.reduced() as u64;
            }
        }
        if let Ok(Ran::Done(total)) = ran {
            for budget in budgets(total) {
                let _ = self.case(|| format!("seed {seed}, budget {budget}"), &Case { budget, ..c.clone() });
            }
        }
    }

    fn count_visits(&mut self, t: &Table) {
        let mut words = vec![0; 256 + 112 * t.rules.len()];
        plan(&t.words(), &mut vec![0; 64 * t.rules.len()], &mut words).unwrap();
        for (x, _) in t.symbols.iter().enumerate().filter(|(_, s)| s.0 == 0) {
            let sets = std::array::from_fn(|a| words[8 * x + a] as u8);
            self.visits[visits(&sets)] += 1;
        }
    }

    /// The largest inputs: the longest table, the deepest trees, every kind of budget on them.
    fn large(&mut self) {
        let whole = |words: Vec<u16>, tree: Vec<u16>| {
            let rules = words[1] as usize;
            let values = (0..tree.len() as i32).map(|v| v * 7919 % 1000 - 500).collect();
            Case { words, rows: vec![!0; 64 * rules], plan: vec![!0; 256 + 112 * rules], tree, values, budget: u32::MAX }
        };
        assert_eq!(longest_cyclic().words().len(), 25_315);
        let mut tables = vec![longest(), longest_cyclic(), crossed_at_full_size()];
        tables.extend((1..8).map(many_rounds));
        tables.extend((0..40).flat_map(|seed| [dense(false, seed), dense(true, seed)]));
        let mut cases: Vec<Case> = tables.iter().map(|t| whole(t.words(), Vec::new())).collect();
        for count in [1, 2, 510, 511, 512] {
            cases.push(whole(G.to_vec(), lines(count)));
        }
        for (rules, right) in [(4, 1), (4, 2), (4, 7), (64, 7), (64, 3)] {
            for nodes in [2, 3, 10, 1022, 1023, 1024, 1025] {
                cases.push(whole(five_visits(rules, right, 8).words(), five_visits_tree(nodes, rules, right)));
            }
        }
        for (k, c) in cases.iter().enumerate() {
            if let Ok(Ran::Done(total)) = self.case(|| format!("large case {k}"), c) {
                for budget in budgets(total).into_iter().chain([total / 2, total / 3]) {
                    let _ = self.case(|| format!("large case {k}, budget {budget}"), &Case { budget, ..c.clone() });
                }
            }
        }
    }

    fn varied(&mut self, seed: u64) {
        let mut k = 0;
        variations(seed, |c| {
            k += 1;
            let _ = self.case(|| format!("seed {seed}, variation {k}"), &c);
        });
    }
}

/// Says what differs, on the case and on the smallest that still differs, and fails.
fn report(name: &str, c: &Case, fault: &str) -> ! {
    let small = shrink(c, |c| compare(c).is_err());
    let mut text = format!("\n{name}: {fault}\nshrunk: {}\n", compare(&small).unwrap_err());
    let _ = writeln!(text, "words  {}", shown(&small.words));
    let _ = writeln!(text, "tree   {:?}\nvalues {:?}\nbudget {}", small.tree, small.values, small.budget);
    let _ = writeln!(text, "room   rows {}, plan {}", small.rows.len(), small.plan.len());
    panic!("{text}");
}

/// The words with a bar between the parts of a table, where they can be read.
fn shown(words: &[u16]) -> String {
    let Some(t) = Table::read(words) else { return format!("{words:?}") };
    let join = |words: &[u16]| words.iter().map(u16::to_string).collect::<Vec<_>>().join(" ");
    let mut parts = vec![join(&words[..3])];
    parts.extend(t.symbols.iter().map(|s| format!("{} {} {}", s.0, s.1, s.2)));
    let mut at = 3 + 3 * t.symbols.len();
    for r in &t.rules {
        let end = at + r.symbols.len() + 2 + r.functions.iter().map(|f| 2 + f.args.len()).sum::<usize>();
        parts.push(join(&words[at..end]));
        at = end;
    }
    parts.join(" | ")
}

#[test]
fn proved_and_independent_agree() {
    let start = Instant::now();
    let workers = std::thread::available_parallelism().map_or(1, |n| n.get()) as u64;
    let mut seen = Seen::default();
    let parts: Vec<Seen> = std::thread::scope(|scope| {
        let work = |w: u64| {
            let mut seen = Seen::default();
            (0..RANDOM).filter(|s| s % workers == w).for_each(|s| seen.random(s));
            (0..VARIED).filter(|s| s % workers == w).for_each(|s| seen.varied(s));
            if w == 0 {
                seen.large();
            }
            seen
        };
        let handles: Vec<_> = (0..workers).map(|w| scope.spawn(move || work(w))).collect();
        handles.into_iter().map(|h| h.join().unwrap_or_else(|e| std::panic::resume_unwind(e))).collect()
    });
    parts.iter().for_each(|p| seen.add(p));
    println!("{} cases alike in {:.1} s", seen.cases, start.elapsed().as_secs_f64());
    println!("done {}, stopped {}, longest run {} actions", seen.done, seen.stopped, seen.longest);
    println!("rules of length 0 to 7 in accepted tables: {:?}", seen.lengths);
    println!("symbols with 0 to 8 attributes there: {:?}", seen.attributes);
    println!("nonterminals with 1 to 5 visits there: {:?}", &seen.visits[1..]);
    println!("of 64 rules: {}, not reduced: {}", seen.full, seen.unreduced);
    assert!(seen.cases >= 200_000);
    for number in NUMBERS {
        let hits = std::mem::take(&mut seen.refused[number as usize]);
        println!("refusal {number}: {hits}");
        assert!(hits >= LEAST, "refusal {number} was hit {hits} times");
    }
    assert_eq!(seen.refused.iter().sum::<u64>(), 0, "a refusal of no known number was answered");
    let kinds = seen.lengths.iter().chain(&seen.attributes).chain(&seen.visits[1..]).chain([&seen.full, &seen.unreduced, &seen.done, &seen.stopped]);
    assert!(kinds.into_iter().all(|&n| n >= LEAST), "some kind of table or run was hardly reached");
}
