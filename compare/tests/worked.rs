//! Document 01's worked examples, on the independent implementation.

use independent::cases::G;
use independent::{plan, run, Ran, Refusal};

fn planned(words: &[u16]) -> Result<Vec<u16>, Refusal> {
    let mut rows = vec![0; 4096];
    let mut out = vec![0; 7424];
    plan(words, &mut rows, &mut out).map(|n| {
        out.truncate(n);
        out
    })
}

fn sequence(plan: &[u16], r: usize) -> &[u16] {
    let at = 256 + 112 * r;
    &plan[at + 1..at + 1 + plan[at] as usize]
}

#[test]
fn g_is_planned_as_printed() {
    let plan = planned(&G).unwrap();
    assert_eq!(plan.len(), 256 + 112 * 3);
    assert_eq!(&plan[..16], &[1, 0, 0, 0, 0, 0, 0, 0, 3, 2, 1, 0, 0, 0, 0, 0]);
    assert_eq!(sequence(&plan, 0), &[72, 9, 73, 0, 128]);
    assert_eq!(sequence(&plan, 1), &[80, 0, 128, 17, 81, 2, 129]);
    assert_eq!(sequence(&plan, 2), &[0, 128, 2, 129]);
}

#[test]
fn refusals_of_reading() {
    assert_eq!(planned(&[]), Err(Refusal::at(1, 0)));
    assert_eq!(planned(&G[..47]), Err(Refusal::at(1, 47)));
    let mut more = G.to_vec();
    more.push(0);
    assert_eq!(planned(&more), Err(Refusal::at(7, 48)));
    assert_eq!(planned(&[33, 1, 0]), Err(Refusal::at(2, 0)));
}

#[test]
fn refusals_of_planning() {
    let round = [2, 2, 0, 0, 1, 0, 0, 2, 2, 0, 1, 1, 2, 0, 1, 8, 9, 1, 8, 1, 0, 1, 0, 1, 1];
    assert_eq!(planned(&round), Err(Refusal { number: 9, place: 0, second: 8 }));
    let crossed = [2, 2, 0, 0, 1, 0, 0, 2, 2, 0, 2, 1, 1, 3, 0, 1, 8, 9, 1, 16, 17, 1, 8, 1, 0, 1, 0, 0, 7];
    assert_eq!(planned(&crossed), Err(Refusal { number: 10, place: 0, second: 8 }));
    let itself = [1, 1, 0, 0, 1, 0, 0, 0, 1, 0, 1, 0];
    assert_eq!(planned(&itself), Err(Refusal { number: 9, place: 0, second: 0 }));
}

#[test]
fn two_lines_run() {
    let tree = [
        0, 1, 0, 0, 0, 0, 0, 0, 1, 2, 3, 0, 0, 0, 0, 0, 32770, 0, 0, 0, 0, 0, 0, 0, 2, 4, 0, 0, 0, 0, 0, 0, 32770, 0, 0, 0, 0, 0, 0, 0,
    ];
    for (second, root) in [(5, 0), (2, 1)] {
        for budget in 0..=17 {
            let mut values = vec![0; 40];
            (values[16], values[32]) = (3, second);
            let ran = run(&G, &mut [0; 192], &mut [0; 592], &tree, &mut values, budget).unwrap();
            assert_eq!(ran, if budget < 16 { Ran::Stopped(budget) } else { Ran::Done(16) });
            if budget >= 15 {
                assert_eq!(values[0], root);
            }
        }
    }
}
