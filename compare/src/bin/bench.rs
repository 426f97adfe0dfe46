//! Time of the proved code and of the plain implementation, in turn in one process, with ratios proved / plain; and the stack that plan and run use.
//! It prints Markdown; `bin/bench --help` says what the columns mean. Times are the thread's own, so that other work on the machine disturbs them little.

use independent::cases::{crossed_at_full_size, dense, five_visits, five_visits_tree, lines, longest, longest_cyclic, many_rounds, G};
use independent::{plan, proved, run, Ran, Refusal};
use std::hint::black_box;
use std::process::{exit, Command};

/// How long is measured: passes over all jobs, rounds of a job in each, and nanoseconds that a side has in a round. The rounds are short and a job's
/// passes lie apart, so that some of them are not disturbed by other work on the machine.
#[derive(Clone, Copy)]
struct Effort {
    passes: usize,
    rounds: usize,
    nanoseconds: f64,
}

const FULL: Effort = Effort { passes: 20, rounds: 20, nanoseconds: 1e6 };
const QUICK: Effort = Effort { passes: 8, rounds: 15, nanoseconds: 1e6 };

#[derive(Clone, Copy, PartialEq)]
enum Side {
    Proved,
    Plain,
}

#[derive(Clone, Copy)]
enum Call {
    Plan,
    /// With a budget.
    Run(u32),
}

/// One job: a call with its input. Where another call is taken off, what is left is a part of it alone.
#[derive(Clone)]
struct Job {
    name: String,
    words: Vec<u16>,
    tree: Vec<u16>,
    /// The length of the rows that are lent.
    rows: usize,
    call: Call,
    less: Option<Call>,
    /// The number of its refusal, 0 where there is none.
    refusal: u32,
}

impl Job {
    fn plan(name: impl Into<String>, words: Vec<u16>) -> Self {
        let rows = 64 * words[1] as usize;
        Job { name: name.into(), words, tree: vec![], rows, call: Call::Plan, less: None, refusal: 0 }
    }

    fn run(name: impl Into<String>, words: Vec<u16>, tree: Vec<u16>) -> Self {
        Job { tree, call: Call::Run(u32::MAX), ..Job::plan(name, words) }
    }

    fn refused(self, refusal: u32) -> Self {
        Job { refusal, ..self }
    }

    fn less(self, less: Call) -> Self {
        Job { less: Some(less), ..self }
    }
}

/// The lent buffers of a job. They are not cleared between calls: whatever is there is written over.
#[derive(Clone, PartialEq)]
struct Lent {
    rows: Vec<u64>,
    plan: Vec<u16>,
    values: Vec<i32>,
}

impl Lent {
    fn new(job: &Job) -> Self {
        let values = (0..job.tree.len() as i32).map(|v| v * 7919 % 1000).collect();
        Lent { rows: vec![!0; job.rows], plan: vec![!0; 256 + 112 * job.words[1] as usize], values }
    }

    /// The actions of a run, 1 for a plan.
    fn call(&mut self, job: &Job, call: Call, side: Side) -> Result<u32, Refusal> {
        let words = black_box(&job.words[..]);
        let ran = match (call, side) {
            (Call::Plan, Side::Proved) => return proved::plan(words, &mut self.rows, &mut self.plan).map(|_| 1),
            (Call::Plan, Side::Plain) => return plan(words, &mut self.rows, &mut self.plan).map(|_| 1),
            (Call::Run(budget), Side::Proved) => proved::run(words, &mut self.rows, &mut self.plan, &job.tree, &mut self.values, budget),
            (Call::Run(budget), Side::Plain) => run(words, &mut self.rows, &mut self.plan, &job.tree, &mut self.values, budget),
        };
        ran.map(|(Ran::Done(n) | Ran::Stopped(n))| n)
    }
}

/// The C library's clock; clock 3 is the time that this thread has run.
#[repr(C)]
struct Time {
    seconds: i64,
    nanoseconds: i64,
}

extern "C" {
    fn clock_gettime(clock: i32, time: &mut Time) -> i32;
}

fn now() -> f64 {
    let mut t = Time { seconds: 0, nanoseconds: 0 };
    // It writes the time lent to it and nothing else.
    assert_eq!(unsafe { clock_gettime(3, &mut t) }, 0);
    t.seconds as f64 * 1e9 + t.nanoseconds as f64
}

/// Nanoseconds a call, over so many calls.
fn time(times: usize, mut call: impl FnMut() -> Result<u32, Refusal>) -> f64 {
    let start = now();
    for _ in 0..times {
        let _ = black_box(call());
    }
    (now() - start) / times as f64
}

/// Both sides answer alike and leave the same: the answer.
fn alike(job: &Job, call: Call) -> Result<u32, Refusal> {
    let (mut ours, mut theirs) = (Lent::new(job), Lent::new(job));
    let answer = ours.call(job, call, Side::Proved);
    assert_eq!(answer, theirs.call(job, call, Side::Plain), "{}: the answers differ", job.name);
    assert!(ours == theirs, "{}: the buffers differ", job.name);
    answer
}

/// A job that is measured: nanoseconds a call by round, of both sides, and of both on the call that is taken off.
struct Meter {
    job: Job,
    lent: Lent,
    actions: Option<u32>,
    parts: Vec<(Call, Side)>,
    times: Vec<usize>,
    took: Vec<Vec<f64>>,
}

impl Meter {
    fn new(job: Job, effort: Effort) -> Self {
        let answer = alike(&job, job.call);
        assert_eq!(answer.map_or_else(|r| r.number, |_| 0), job.refusal, "{}: another answer than expected", job.name);
        let mut parts = vec![(job.call, Side::Proved), (job.call, Side::Plain)];
        if let Some(less) = job.less {
            let _ = alike(&job, less);
            parts.extend([(less, Side::Proved), (less, Side::Plain)]);
        }
        let mut lent = Lent::new(&job);
        let times = parts.iter().map(|&(call, side)| (effort.nanoseconds / time(3, || lent.call(&job, call, side))).clamp(1.0, 1e6) as usize).collect();
        let took = vec![Vec::new(); parts.len()];
        let actions = answer.ok().filter(|_| matches!(job.call, Call::Run(_)));
        Meter { job, lent, actions, parts, times, took }
    }

    /// Measures in turn: who goes first changes from round to round.
    fn rounds(&mut self, count: usize) {
        for k in 0..count {
            for j in 0..self.parts.len() {
                let j = if k % 2 == 0 { j } else { self.parts.len() - 1 - j };
                let (call, side) = self.parts[j];
                self.took[j].push(time(self.times[j], || self.lent.call(&self.job, call, side)));
            }
        }
    }

    fn least(&self, side: Side) -> f64 {
        let least = |j: usize| self.took[j].iter().copied().fold(f64::MAX, f64::min);
        let j = side as usize;
        if self.job.less.is_some() { least(j) - least(j + 2) } else { least(j) }
    }

    /// A side's time in round k.
    fn in_round(&self, k: usize, side: Side) -> f64 {
        let j = side as usize;
        self.took[j][k] - if self.job.less.is_some() { self.took[j + 2][k] } else { 0.0 }
    }

    /// The median over the rounds of something.
    fn median(&self, of: impl Fn(usize) -> f64) -> f64 {
        let mut all: Vec<f64> = (0..self.took[0].len()).map(of).collect();
        all.sort_by(f64::total_cmp);
        all[all.len() / 2]
    }

    fn ratio(&self) -> f64 {
        self.least(Side::Proved) / self.least(Side::Plain)
    }

    fn line(&self) -> String {
        let micros = |nanoseconds: f64| format!("{:.2}", nanoseconds / 1000.0);
        let each = |side: Side| self.actions.map_or(String::new(), |n| format!("{:.1}", self.least(side) / n as f64));
        let (proved, plain) = (|k| self.in_round(k, Side::Proved), |k| self.in_round(k, Side::Plain));
        [
            self.job.name.clone(),
            micros(self.least(Side::Proved)),
            micros(self.least(Side::Plain)),
            format!("{:.2}", self.ratio()),
            micros(self.median(proved)),
            micros(self.median(plain)),
            format!("{:.2}", self.median(|k| proved(k) / plain(k))),
            each(Side::Proved),
            each(Side::Plain),
        ]
        .map(|cell| format!("| {cell} "))
        .concat()
            + "|"
    }
}

/// A table of jobs. Where they rise in size, the sizes and what they are sizes of.
struct Section {
    title: &'static str,
    meters: Vec<Meter>,
    against: Option<(&'static str, Vec<usize>)>,
}

impl Section {
    fn new(title: &'static str, jobs: Vec<Job>, effort: Effort) -> Self {
        Section { title, meters: jobs.into_iter().map(|job| Meter::new(job, effort)).collect(), against: None }
    }

    fn rising(title: &'static str, what: &'static str, sizes: &[usize], job: impl Fn(usize) -> Job, effort: Effort) -> Self {
        let section = Section::new(title, sizes.iter().map(|&n| job(n)).collect(), effort);
        Section { against: Some((what, sizes.to_vec())), ..section }
    }

    fn print(&self) {
        println!("{}:\n", self.title);
        println!("| Job | proved, µs | plain, µs | ratio | proved, median | plain, median | ratio, median | proved, ns an action | plain, ns an action |");
        println!("|---|---|---|---|---|---|---|---|---|");
        self.meters.iter().for_each(|m| println!("{}", m.line()));
        println!();
        if let Some((what, sizes)) = &self.against {
            let of = |side: Side| exponent(&sizes.iter().zip(&self.meters).map(|(&n, m)| (n as f64, m.least(side))).collect::<Vec<_>>());
            println!("Cost grows like {what} to the {:.2} (proved), to the {:.2} (plain).\n", of(Side::Proved), of(Side::Plain));
        }
    }
}

/// The exponent e for which time grows like size to the e: the slope of the line through the logarithms that fits best.
fn exponent(points: &[(f64, f64)]) -> f64 {
    let logs: Vec<(f64, f64)> = points.iter().map(|p| (p.0.ln(), p.1.ln())).collect();
    let n = logs.len() as f64;
    let (x, y) = (logs.iter().map(|p| p.0).sum::<f64>() / n, logs.iter().map(|p| p.1).sum::<f64>() / n);
    logs.iter().map(|p| (p.0 - x) * (p.1 - y)).sum::<f64>() / logs.iter().map(|p| (p.0 - x).powi(2)).sum::<f64>()
}

/// The bytes below the caller's stack pointer that a call touches. The stack there is painted first, on a thread of its own.
fn stack_bytes(call: impl FnOnce() + Send + 'static) -> usize {
    const PAINTED: usize = 1 << 19;
    /// What a function may use below its stack pointer without moving it.
    const RED_ZONE: usize = 128;
    const PATTERN: u64 = 0x5afe_57ac_5afe_57ac;
    std::thread::Builder::new()
        .stack_size(4 * PAINTED)
        .spawn(move || {
            let top: usize;
            unsafe { std::arch::asm!("mov {}, rsp", out(reg) top) };
            let low = top - RED_ZONE - PAINTED;
            // These addresses are within the thread's own stack, below every frame in use, and each is written before it is read.
            for k in 0..PAINTED / 8 {
                unsafe { ((low + 8 * k) as *mut u64).write_volatile(PATTERN) };
            }
            call();
            let mut k = 0;
            while k < PAINTED / 8 && unsafe { ((low + 8 * k) as *const u64).read_volatile() } == PATTERN {
                k += 1;
            }
            top - (low + 8 * k)
        })
        .unwrap()
        .join()
        .unwrap()
}

fn line(command: &str, words: &[&str]) -> String {
    let out = Command::new(command).args(words).output().map(|o| o.stdout).unwrap_or_default();
    String::from_utf8_lossy(&out).trim().to_string()
}

fn sections(effort: Effort) -> Vec<Section> {
    let two = || (five_visits(4, 2, 8).words(), five_visits_tree(1023, 4, 2));
    let path = || (five_visits(4, 1, 8).words(), five_visits_tree(1024, 4, 1));
    // One more node, which is no node's child.
    let orphan = [lines(511), vec![32770, 0, 0, 0, 0, 0, 0, 0]].concat();
    let planning = vec![
        Job::plan("plan G", G.to_vec()),
        Job::plan("plan the longest ordered table: 64 rules of length 7, 64 functions each", longest().words()),
        Job::plan("plan 64 rules of length 7, 8 attributes in 5 visits", five_visits(64, 7, 8).words()),
        Job::plan("plan dense: 64 rules of length 7, 8 attributes, left to right", dense(false, 1).words()),
        Job::plan("plan dense: 64 rules of length 7, 8 attributes in 5 visits", dense(true, 1).words()),
        Job::plan("plan many rounds: 92 passes over 33 rules of length 1", many_rounds(1).words()),
        Job::plan("plan many rounds: 92 passes over 33 rules of length 7", many_rounds(7).words()),
        Job::plan("refused 9 at full size: 25,315 words", longest_cyclic().words()).refused(9),
        Job::plan("refused 10 at full size: 64 rules of length 7, 8 attributes", crossed_at_full_size().words()).refused(10),
        Job { rows: 0, ..Job::plan("reading alone: 25,315 words (8 for the rows)", longest_cyclic().words()).refused(8) },
    ];
    let runs = [
        Job::run("run G, 1,023 nodes", G.to_vec(), lines(511)),
        Job::run("run 5 visits, 1,023 nodes", two().0, two().1),
        Job::run("run 5 visits, 1,024 nodes in one path", path().0, path().1),
    ];
    let alone = runs.clone().map(|job| Job { name: format!("{}, alone", job.name), ..job }.less(Call::Run(0)));
    let check = Job::run("tree check alone: 17 at the last of 1,024 nodes", G.to_vec(), orphan).refused(17).less(Call::Plan);
    let by_rules = |n: usize| Job::plan(format!("{n} rules"), five_visits(n, 7, 8).words());
    let by_occurrences = |n: usize| Job::plan(format!("{n} occurrences"), five_visits(64, n / 8 - 1, 8).words());
    let by_nodes = |n: usize| Job::run(format!("{n} nodes"), two().0, five_visits_tree(n, 4, 2));
    vec![
        Section::new("Planning", planning, effort),
        Section::new("Runs with planning, runs alone (a budget of 0 taken off), and the tree check (planning taken off)", [&runs[..], &alone, &[check]].concat(), effort),
        Section::rising("Planning against the number of rules (length 7, 8 attributes, 5 visits)", "the rules", &[4, 8, 16, 32, 64], by_rules, effort),
        Section::rising("Planning 64 rules against the occurrences of a rule (8 attributes a symbol)", "the occurrences", &[16, 24, 32, 40, 48, 56, 64], by_occurrences, effort),
        Section::new("Running 5 visits against the number of nodes, with planning", [2, 16, 64, 256, 512, 1024].map(by_nodes).into(), effort),
    ]
}

fn print_stack() {
    let used = |job: Job| {
        let mut lent = Lent::new(&job);
        stack_bytes(move || {
            let _ = black_box(lent.call(&job, job.call, Side::Proved));
        })
    };
    println!("Stack of the proved code, as touched below the caller (no heap is used):\n\n| Call | bytes |\n|---|---|");
    println!("| plan, the longest ordered table | {} |", used(Job::plan("", longest().words())));
    println!("| plan G | {} |", used(Job::plan("", G.to_vec())));
    println!("| plan, 64 rules with 5 visits | {} |", used(Job::plan("", five_visits(64, 7, 8).words())));
    println!("| run, 1,024 nodes in one path | {} |", used(Job::run("", five_visits(4, 1, 8).words(), five_visits_tree(1024, 4, 1))));
}

fn main() {
    let arguments: Vec<String> = std::env::args().skip(1).collect();
    let effort = match arguments.iter().map(String::as_str).collect::<Vec<_>>()[..] {
        [] => FULL,
        ["--quick"] => QUICK,
        _ => {
            eprintln!("usage: bench [--quick]");
            exit(2);
        }
    };
    let mut sections = sections(effort);
    for _ in 0..effort.passes {
        sections.iter_mut().flat_map(|s| &mut s.meters).for_each(|m| m.rounds(effort.rounds));
    }
    let cores = std::thread::available_parallelism().map_or(1, |n| n.get());
    let (date, rounds) = (line("date", &["+%Y-%m-%d"]), effort.passes * effort.rounds);
    println!("{date}, {cores} cores. Least of {rounds} rounds, both sides in turn, and medians. Buffers are not cleared between calls.\n");
    sections.iter().for_each(Section::print);
    let ratios: Vec<f64> = sections.iter().flat_map(|s| &s.meters).map(Meter::ratio).collect();
    let slower = ratios.iter().filter(|&&r| r > 1.0).count();
    println!("The proved code is slower in {slower} of {} jobs; the highest ratio is {:.2}.\n", ratios.len(), ratios.iter().copied().fold(0.0, f64::max));
    print_stack();
}
