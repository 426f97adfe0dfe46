//! The command's check of its own conversions: whatever else the words could be, it stops.

use skarnuth::check::{conversion, Unsound};
use skarnuth::proved::Refusal;
use skarnuth::text::{read, shown};

const SOURCES: &[u8] = include_bytes!("../../examples/sources.table");

#[test]
fn a_right_conversion_passes() {
    let reading = read("sources", SOURCES).1.expect("the example");
    assert!(conversion(SOURCES, &reading.words, &reading.symbols).is_ok());
}

/// Every word changed to every small number and to a few others, dropped, or doubled.
#[test]
fn any_other_words_are_stopped() {
    let reading = read("sources", SOURCES).1.expect("the example");
    let mut seen = [0; 2];
    for at in 0..reading.words.len() {
        for other in (0..70).chain([255, 256, 32_767, 32_768, 65_535]).filter(|&w| w != reading.words[at]) {
            let mut words = reading.words.clone();
            words[at] = other;
            let answer = conversion(SOURCES, &words, &reading.symbols).map(|_| ());
            assert!(matches!(answer, Err(Unsound::Refused(_) | Unsound::OtherText)), "word {at} as {other}: {answer:?}");
            seen[usize::from(answer == Err(Unsound::OtherText))] += 1;
        }
        let mut words = reading.words.clone();
        words.remove(at);
        assert!(conversion(SOURCES, &words, &reading.symbols).is_err(), "word {at} left out");
        words.insert(at, reading.words[at]);
        words.insert(at, reading.words[at]);
        assert!(conversion(SOURCES, &words, &reading.symbols).is_err(), "word {at} twice");
    }
    assert!(seen[0] > 100 && seen[1] > 100, "both kinds are met: {seen:?}");
}

#[test]
fn other_names_are_stopped() {
    let reading = read("sources", SOURCES).1.expect("the example");
    let mut swapped = reading.symbols.clone();
    swapped[1].attributes.swap(0, 1);
    assert_eq!(conversion(SOURCES, &reading.words, &swapped).err(), Some(Unsound::OtherText));
    let mut fewer = reading.symbols.clone();
    fewer[1].attributes.pop();
    assert_eq!(conversion(SOURCES, &reading.words, &fewer).err(), Some(Unsound::OtherText));
    fewer.pop();
    assert_eq!(conversion(SOURCES, &reading.words, &fewer).err(), Some(Unsound::OtherText));
}

/// The message has the line of the word that the proved reader refuses, and what failed.
#[test]
fn the_message_says_what_failed() {
    let (source, read) = read("sources.table", SOURCES);
    let reading = read.expect("the example");
    // `source#1.threshold = copy level.threshold` is 17 1 8; with 16 for 17 it is a second function for source#1.number.
    let at = reading.words.windows(3).position(|w| w == [17, 1, 8]).expect("a copy");
    let mut words = reading.words.clone();
    words[at] = 16;
    let unsound = conversion(SOURCES, &words, &reading.symbols).err().expect("it is stopped");
    assert_eq!(unsound, Unsound::Refused(Refusal { number: 5, place: at, second: 0 }));
    assert_eq!(
        shown(&source, &[unsound.fault(&source, &reading.places)]),
        format!(
            "sources.table:13:3: skarnuth's own check of this conversion failed, and nothing is written: the proved reader answers: refused 5 {at} 0\n   \
             13 |   source#1.threshold = copy level.threshold\n      |   ^^^^^^^^^^^^^^^^^^\n"
        )
    );
    let other = Unsound::OtherText.fault(&source, &reading.places);
    assert_eq!(
        other.text,
        "skarnuth's own check of this conversion failed, and nothing is written: its words, printed with its names, say something else"
    );
    assert_eq!(other.at, source.end());
}
