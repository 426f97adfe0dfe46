//! Random and damaged texts. Each ends in words that read back, or in faults with their lines; none in a crash.

mod common;

use common::{damaged, noise, table, Rng};
use skarnuth::proved::{plan, Refusal};
use skarnuth::table::Table;
use skarnuth::{check, cycle, dot, explain, grammar::Grammar, list, refusal, text};
use std::time::{Duration, Instant};

const TEXTS: u64 = 120_000;
const LONGEST: Duration = Duration::from_secs(60);

#[derive(Default, Debug)]
struct Seen {
    read: u64,
    unread: u64,
    accepted: u64,
    circular: u64,
    not_ordered: u64,
}

fn text_of(seed: u64) -> Vec<u8> {
    let mut rng = Rng::new(seed);
    match rng.below(20) {
        0 => noise(&mut rng),
        1..=6 => table(&mut rng).into_bytes(),
        _ => {
            let whole = table(&mut rng);
            damaged(&mut rng, &whole)
        }
    }
}

fn one(seed: u64, seen: &mut Seen) {
    let bytes = text_of(seed);
    let (source, read) = text::read("fuzz", &bytes);
    let reading = match read {
        Ok(reading) => reading,
        Err(faults) => {
            seen.unread += 1;
            assert!(!faults.is_empty(), "seed {seed}: no words and no fault");
            assert!(faults.iter().all(|f| f.at.line < source.lines.len()), "seed {seed}: a fault outside the file");
            assert!(text::shown(&source, &faults).starts_with("fuzz:"), "seed {seed}: a fault is not shown");
            return;
        }
    };
    seen.read += 1;
    assert_eq!(reading.places.len(), reading.words.len() + 1, "seed {seed}: a place for each word and the end");
    let table = check::conversion(&bytes, &reading.words, &reading.symbols).unwrap_or_else(|why| panic!("seed {seed}: {why}"));
    let grammar = Grammar::named(table, &reading);
    let planned = plan(&reading.words);
    // Drawing works out the relations again, which takes longer than all the rest.
    if seed.is_multiple_of(16) {
        assert!(dot::drawn(&grammar, &planned, None).starts_with("digraph"), "seed {seed}: not drawn");
    }
    match planned.refusal {
        None => {
            seen.accepted += 1;
            assert!(list::listing(&grammar.table, &planned).starts_with("plan "), "seed {seed}: not listed");
            assert!(explain::explained(&grammar, &planned).contains("leave 1"), "seed {seed}: not explained");
        }
        Some(Refusal { number: 9, .. }) => seen.circular += 1,
        Some(Refusal { number: 10, .. }) => seen.not_ordered += 1,
        Some(other) => panic!("seed {seed}: {other}"),
    }
    if let Some(answer) = planned.refusal {
        assert!(cycle::cycle(&grammar.table, &planned, answer).is_ok(), "seed {seed}: no cycle is shown");
        assert!(refusal::of_planning(&grammar, &planned, answer).contains(" -> "), "seed {seed}: no arc is shown");
    }
}

#[test]
fn every_text_ends_in_words_or_in_faults() {
    let start = Instant::now();
    let workers = std::thread::available_parallelism().map_or(1, |n| n.get()) as u64;
    let parts: Vec<Seen> = std::thread::scope(|scope| {
        let work = move |worker: u64| {
            let mut seen = Seen::default();
            (0..TEXTS).filter(|seed| seed % workers == worker).for_each(|seed| one(seed, &mut seen));
            seen
        };
        let handles: Vec<_> = (0..workers).map(|w| scope.spawn(move || work(w))).collect();
        handles.into_iter().map(|h| h.join().unwrap_or_else(|e| std::panic::resume_unwind(e))).collect()
    });
    let sum = |of: fn(&Seen) -> u64| parts.iter().map(of).sum::<u64>();
    let (read, unread) = (sum(|s| s.read), sum(|s| s.unread));
    let (accepted, circular, not_ordered) = (sum(|s| s.accepted), sum(|s| s.circular), sum(|s| s.not_ordered));
    println!(
        "{TEXTS} texts in {:.1} s: {read} read ({accepted} accepted, {circular} refused with 9, {not_ordered} with 10), {unread} not",
        start.elapsed().as_secs_f64()
    );
    assert!(
        read > 20_000 && unread > 20_000 && accepted > 5_000 && circular > 1_000 && not_ordered > 500,
        "some kind of text was hardly reached"
    );
    assert!(start.elapsed() < LONGEST, "it took longer than a minute");
}

/// Words that were damaged or never were a table: each gets a plan or an explanation, by number.
#[test]
fn every_list_of_words_ends_in_a_plan_or_an_explanation() {
    let mut answers = [0u64; 11];
    for seed in 0..60_000 {
        let mut rng = Rng::new(seed);
        let mut words = text::read("fuzz", table(&mut rng).as_bytes()).1.unwrap_or_else(|f| panic!("seed {seed}: {}", f[0].text)).words;
        for _ in 0..rng.below(4) {
            let at = rng.below(words.len());
            match rng.below(5) {
                0 => words.truncate(at),
                1 => words.insert(at, rng.below(70) as u16),
                2 if !words.is_empty() => words[at] = rng.next() as u16,
                3 if !words.is_empty() => drop(words.remove(at)),
                _ if !words.is_empty() => words[at] = rng.below(10) as u16,
                _ => {}
            }
        }
        let planned = plan(&words);
        answers[planned.refusal.map_or(0, |r| r.number as usize)] += 1;
        match planned.refusal {
            Some(refused) if refused.number < 8 => {
                let told = refusal::of_words(&words, refused);
                assert!(told.ends_with('\n') && !told.contains("no part of a table"), "seed {seed}: {told}");
            }
            other => {
                let table = Table::of(&words).unwrap_or_else(|| panic!("seed {seed}: words that are read and cannot be taken apart"));
                let grammar = Grammar::numbered(table);
                let told = other.map_or_else(|| explain::explained(&grammar, &planned), |r| refusal::of_planning(&grammar, &planned, r));
                assert!(told.contains("Names are numbers"), "seed {seed}: {told}");
            }
        }
    }
    println!("60000 lists of words, by refusal: {answers:?}");
    assert!([0, 1, 2, 3, 4, 5, 6, 7, 9, 10].iter().all(|&n| answers[n] > 50), "some answer was hardly reached: {answers:?}");
}
