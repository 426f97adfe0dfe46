//! What each line of a readable table is: a declaration, a rule's header, a function or a comment. Names are not looked up here.
//! A line with a mistake keeps what could be read of it, so that one mistake is not reported again at every use of a name.

use super::fault::{quoted, Fault};
use super::names::{is_name, nearest, not_a_name};
use super::number::{self, whole};
use super::source::{Source, Span, Word};
use crate::limits;

/// The operations in the order of their numbers: name, how many arguments, and what they are called.
pub const OPERATIONS: [(&str, usize, &str); 9] = [
    ("const", 1, "a whole number"),
    ("copy", 1, "x"),
    ("sum", 2, "x y"),
    ("difference", 2, "x y"),
    ("larger", 2, "x y"),
    ("smaller", 2, "x y"),
    ("less", 2, "x y"),
    ("choose", 3, "x y z"),
    ("served", 4, "p s q t"),
];
const CONST: usize = 0;
/// The words that begin a line which is no function.
const KEYWORDS: [&str; 4] = ["start", "nonterminal", "terminal", "rule"];
const FUNCTION: &str = "SYMBOL.ATTRIBUTE = OPERATION ARGUMENTS";
/// A symbol stands at most at every position of a rule.
const POSITIONS: std::ops::RangeInclusive<i64> = 1..=limits::RIGHT as i64 + 1;

pub enum Line<'a> {
    /// Nothing, or a comment.
    Nothing,
    /// A comment that holds the header of a rule.
    CommentedHeader,
    Start(Option<Word<'a>>),
    Symbol(Symbol<'a>),
    Header(Header<'a>),
    Function(Function<'a>),
    /// None of these.
    Unknown,
}

pub struct Symbol<'a> {
    pub terminal: bool,
    pub name: Option<Word<'a>>,
    pub attributes: Vec<Attribute<'a>>,
    /// Whether every word of the line could be read.
    pub whole: bool,
}

pub struct Attribute<'a> {
    pub inherited: bool,
    pub name: &'a str,
    pub at: Span,
}

pub struct Header<'a> {
    pub left: Option<Word<'a>>,
    pub right: Vec<Word<'a>>,
    pub whole: bool,
}

pub struct Function<'a> {
    pub target: Option<Occurrence<'a>>,
    pub operation: Option<(usize, Span)>,
    pub arguments: Vec<Argument<'a>>,
    pub whole: bool,
    pub at: Span,
}

/// symbol.attribute or symbol#number.attribute.
#[derive(Clone, Copy)]
pub struct Occurrence<'a> {
    pub symbol: &'a str,
    pub number: Option<usize>,
    pub attribute: &'a str,
    pub word: Word<'a>,
}

pub enum Argument<'a> {
    Constant(u16, Span),
    Occurrence(Occurrence<'a>),
    /// A number where an occurrence should stand. What to do instead depends on the rule.
    Number(Word<'a>),
}

/// Reads one line. Mistakes are added to `faults`.
pub fn line<'a>(source: &'a Source, at: usize, faults: &mut Vec<Fault>) -> Line<'a> {
    let all = source.words(at);
    let Some(first) = all.first() else { return Line::Nothing };
    if first.text.starts_with('#') {
        return if holds_header(&all) { Line::CommentedHeader } else { Line::Nothing };
    }
    let words = without_comment(&all, faults);
    let end = words.last().map_or(first.at, |w| w.at);
    let end = Span { line: at, from: end.to, to: end.to };
    let mut reader = Reader { words: &words, end, faults };
    match first.text {
        "start" => reader.start(),
        "nonterminal" => reader.symbol(false),
        "terminal" => reader.symbol(true),
        "rule" => reader.header(),
        _ => reader.function(),
    }
}

/// `# rule left = ..`, with any number of #.
fn holds_header(words: &[Word]) -> bool {
    let bare: Vec<&str> = words.iter().map(|w| w.text.trim_start_matches('#')).filter(|t| !t.is_empty()).collect();
    bare.len() >= 3 && bare[0] == "rule" && bare[2] == "="
}

/// The words before a comment. After other words on its line a comment is a # and a blank, so that `lines #2` is not half a comment.
fn without_comment<'a>(all: &[Word<'a>], faults: &mut Vec<Fault>) -> Vec<Word<'a>> {
    let Some(n) = all.iter().position(|w| w.text.starts_with('#')) else { return all.to_vec() };
    if !all[n].text.trim_start_matches('#').is_empty() {
        let word = quoted(all[n].text);
        let text =
            format!("{word}: a comment after other words is # and a blank; a count stands right behind its symbol, as in lines#2.highest");
        faults.push(Fault::new(all[n].at, text));
    }
    all[..n].to_vec()
}

struct Reader<'a, 'b> {
    words: &'b [Word<'a>],
    /// Behind the last word.
    end: Span,
    faults: &'b mut Vec<Fault>,
}

impl<'a> Reader<'a, '_> {
    fn fault(&mut self, at: Span, text: impl Into<String>) {
        self.faults.push(Fault::new(at, text));
    }

    fn start(&mut self) -> Line<'a> {
        match self.words {
            [_] => self.fault(self.end, "the name of the start symbol is missing: start NAME"),
            [_, _, extra, ..] => self.fault(extra.at, format!("{} is a word too many: start takes one name", quoted(extra.text))),
            _ => {}
        }
        Line::Start(self.words.get(1).copied().filter(|word| self.is_name(word)))
    }

    fn symbol(&mut self, terminal: bool) -> Line<'a> {
        let before = self.faults.len();
        let Some(name) = self.words.get(1).copied() else {
            self.fault(self.end, "the name of the symbol is missing");
            return Line::Symbol(Symbol { terminal, name: None, attributes: Vec::new(), whole: false });
        };
        let name = Some(name).filter(|word| self.is_name(word));
        let attributes = self.words[2..].iter().filter_map(|word| self.attribute(terminal, word)).collect();
        Line::Symbol(Symbol { terminal, name, attributes, whole: self.faults.len() == before })
    }

    fn attribute(&mut self, terminal: bool, word: &Word<'a>) -> Option<Attribute<'a>> {
        let (inherited, name) = match (word.text.strip_prefix("s."), word.text.strip_prefix("i.")) {
            (Some(name), _) => (false, name),
            (_, Some(name)) => (true, name),
            _ => {
                let name = word.text.rsplit('.').next().filter(|name| is_name(name) && name.len() < 40).unwrap_or("NAME");
                let inherited = format!(" for a synthesized one (it goes up) or i.{name} for an inherited one (it comes down)");
                let inherited = if terminal { "" } else { &inherited };
                self.fault(word.at, format!("{} is no attribute: write s.{name}{inherited}", quoted(word.text)));
                return None;
            }
        };
        if !is_name(name) {
            self.fault(word.at, format!("{}: behind the dot {}", quoted(word.text), not_a_name(name)));
            return None;
        }
        Some(Attribute { inherited, name, at: word.at })
    }

    fn header(&mut self) -> Line<'a> {
        let before = self.faults.len();
        let left = self.words.get(1).copied().filter(|word| word.text != "=");
        let Some(left) = left else {
            self.fault(self.words.get(1).map_or(self.end, |w| w.at), "the left side is missing: rule LEFT = RIGHT ..");
            return Line::Header(Header { left: None, right: Vec::new(), whole: false });
        };
        if self.words.get(2).map(|w| w.text) != Some("=") {
            self.fault(self.words.get(2).map_or(self.end, |w| w.at), "expected = with a blank on each side: rule LEFT = RIGHT ..");
            return Line::Header(Header { left: Some(left), right: Vec::new(), whole: false });
        }
        let left = Some(left).filter(|word| self.is_header_name(word));
        let right = self.words[3..].iter().copied().filter(|word| self.is_header_name(word)).collect();
        Line::Header(Header { left, right, whole: self.faults.len() == before })
    }

    fn is_header_name(&mut self, word: &Word<'a>) -> bool {
        if word.text.split_once('#').is_some_and(|(name, _)| is_name(name)) {
            let text = "a rule's header has names without #; in its functions a symbol is counted from the left side on";
            self.fault(word.at, format!("{}: {text}", quoted(word.text)));
            return false;
        }
        self.is_name(word)
    }

    fn is_name(&mut self, word: &Word<'a>) -> bool {
        let good = is_name(word.text);
        if !good {
            self.fault(word.at, not_a_name(word.text));
        }
        good
    }

    fn function(&mut self) -> Line<'a> {
        let first = self.words[0];
        if self.words.get(1).map(|w| w.text) != Some("=") {
            self.not_a_function(first);
            return Line::Unknown;
        }
        let before = self.faults.len();
        let target = self.occurrence(first);
        let operation = self.operation();
        let arguments = operation.map_or(Vec::new(), |(op, _)| self.arguments(op));
        Line::Function(Function { target, operation, arguments, whole: self.faults.len() == before, at: first.at })
    }

    fn not_a_function(&mut self, first: Word<'a>) {
        let word = quoted(first.text);
        let (at, text) = if let Some(keyword) = KEYWORDS.into_iter().find(|k| nearest(first.text, [*k].into_iter()).is_some()) {
            (first.at, format!("{word} begins no line; did you mean {keyword}?"))
        } else if let Some(glued) = self.words.iter().find(|w| w.text.len() > 1 && w.text.contains('=')) {
            (glued.at, format!("{}: = stands alone, with a blank on each side", quoted(glued.text)))
        } else if number::looks_like_one(first.text) {
            (first.at, format!("{word} begins no line; words in decimal are read with --decimal"))
        } else if let (true, Some(second)) = (first.text.contains('.'), self.words.get(1)) {
            (second.at, format!("expected =: a function is {FUNCTION}"))
        } else {
            (first.at, format!("{word} begins no line: expected {}, or a function {FUNCTION}", KEYWORDS.join(", ")))
        };
        self.fault(at, text);
    }

    fn operation(&mut self) -> Option<(usize, Span)> {
        let Some(word) = self.words.get(2) else {
            self.fault(self.end, format!("the operation is missing: {FUNCTION}"));
            return None;
        };
        let found = OPERATIONS.iter().position(|(name, ..)| *name == word.text);
        if found.is_none() {
            self.fault(word.at, no_operation(word.text));
        }
        found.map(|op| (op, word.at))
    }

    fn arguments(&mut self, op: usize) -> Vec<Argument<'a>> {
        let given = &self.words[3..];
        let (name, takes, called) = OPERATIONS[op];
        if given.len() != takes {
            let at = given.get(takes).map_or(self.end, |extra| extra.at);
            let what = match (op, takes) {
                (CONST, _) => called.to_string(),
                (_, 1) => format!("1 argument ({called})"),
                _ => format!("{takes} arguments ({called})"),
            };
            let here = match given.len() {
                0 => "is none".to_string(),
                1 => "is 1".to_string(),
                n => format!("are {n}"),
            };
            self.fault(at, format!("{name} takes {what}; here {here}"));
        }
        given.iter().take(takes).filter_map(|word| self.argument(op, *word)).collect()
    }

    fn argument(&mut self, op: usize, word: Word<'a>) -> Option<Argument<'a>> {
        if op != CONST {
            if number::looks_like_one(word.text) {
                return Some(Argument::Number(word));
            }
            return self.occurrence(word).map(Argument::Occurrence);
        }
        match whole(word.text, &limits::CONSTANTS) {
            // Two's complement: the low 16 bits.
            Ok(n) => Some(Argument::Constant(n as u16, word.at)),
            Err(why) => {
                let copied = if read_occurrence(word.text).is_some() { "; to take over an attribute write copy" } else { "" };
                let (least, most) = (limits::CONSTANTS.start(), limits::CONSTANTS.end());
                self.fault(word.at, format!("const takes a whole number from {least} to {most}; {} {why}{copied}", quoted(word.text)));
                None
            }
        }
    }

    fn occurrence(&mut self, word: Word<'a>) -> Option<Occurrence<'a>> {
        let found = read_occurrence(word.text).map(|(symbol, number, attribute)| Occurrence { symbol, number, attribute, word });
        if found.is_none() {
            self.fault(word.at, no_occurrence(word.text));
        }
        found
    }
}

/// Symbol, number and attribute of `symbol.attribute` or `symbol#number.attribute`.
fn read_occurrence(text: &str) -> Option<(&str, Option<usize>, &str)> {
    let (before, attribute) = text.split_once('.')?;
    let (symbol, number) = match before.split_once('#') {
        None => (before, None),
        Some((symbol, digits)) => (symbol, Some(whole(digits, &POSITIONS).ok()? as usize)),
    };
    (is_name(symbol) && is_name(attribute)).then_some((symbol, number, attribute))
}

fn no_occurrence(text: &str) -> String {
    let form = "expected SYMBOL.ATTRIBUTE, or SYMBOL#1.ATTRIBUTE where the symbol stands several times in the rule";
    let Some((before, attribute)) = text.split_once('.') else {
        return format!("{} names no attribute: {form}", quoted(text));
    };
    if let Some((_, digits)) = before.split_once('#').filter(|(symbol, _)| is_name(symbol)) {
        if let Err(why) = whole(digits, &POSITIONS) {
            let why = if digits.is_empty() { "it is missing".to_string() } else { format!("{} {why}", quoted(digits)) };
            return format!(
                "{}: behind # stands a number from 1 to {}, counted from the left side on; {why}",
                quoted(text),
                POSITIONS.end()
            );
        }
    }
    let wrong = [before.split('#').next().unwrap_or(""), attribute].into_iter().find(|part| !is_name(part)).unwrap_or(text);
    format!("{}: {}", quoted(text), not_a_name(wrong))
}

fn no_operation(text: &str) -> String {
    let names = || OPERATIONS.iter().map(|(name, ..)| *name);
    let all = names().collect::<Vec<_>>().join(", ");
    let hint = if number::looks_like_one(text) {
        "; for a constant write const before it".to_string()
    } else if read_occurrence(text).is_some() {
        "; to take over an attribute write copy before it".to_string()
    } else {
        nearest(text, names()).map_or(String::new(), |name| format!("; did you mean {name}?"))
    };
    format!("no operation {}: the operations are {all}{hint}", quoted(text))
}
