//! Files of frames: one frame to a line, in hexadecimal digits; what each call answers is printed.

use std::fmt::Write;

use crate::automata::{Among, Dense};
use crate::plan::{Plan, Refusal, Try};
use crate::rules::{CELLS, Cells, Counter, Rule, Sense};
use crate::settling::{Failure, Rules, Spot, Work};

const LONGEST_LINE: usize = 516;
const FAMILY_RULES: usize = 24;

#[derive(Clone, Copy, PartialEq, Eq, Debug)]
enum Layer {
    Line,
    Frame,
    Post,
    Plan,
}

impl Layer {
    fn name(self) -> &'static str {
        match self {
            Layer::Line => "line",
            Layer::Frame => "frame",
            Layer::Post => "post",
            Layer::Plan => "plan",
        }
    }
}

/// Why a line is refused.
#[derive(Clone, Copy, PartialEq, Eq, Debug)]
struct Fault {
    number: u8,
    layer: Layer,
    place: usize,
}

fn line_fault(number: u8, place: usize) -> Fault {
    Fault {
        number,
        layer: Layer::Line,
        place,
    }
}

fn frame_fault(number: u8) -> Fault {
    Fault {
        number,
        layer: Layer::Frame,
        place: 0,
    }
}

fn post_fault(number: u8, place: usize) -> Fault {
    Fault {
        number,
        layer: Layer::Post,
        place,
    }
}

impl From<Refusal> for Fault {
    fn from(refusal: Refusal) -> Fault {
        Fault {
            number: refusal as u8,
            layer: Layer::Plan,
            place: 0,
        }
    }
}

/// What a file has given before its start: the three automata, and rules for each.
#[derive(Default)]
struct Draft {
    among: Option<Among>,
    word: Option<Dense>,
    table: Option<Dense>,
    map: Option<[u8; 16]>,
    rules: [Vec<Rule>; 3],
}

impl Draft {
    /// Whether the automaton of a family is given.
    fn has(&self, family: usize) -> bool {
        match family {
            0 => self.among.is_some(),
            1 => self.word.is_some(),
            _ => self.table.is_some(),
        }
    }

    fn into_rules(self) -> Rules {
        let word = self.word.map(|word| match &self.map {
            Some(classes) => word.mapped(classes),
            None => word,
        });
        let dense = |dense| Counter::Dense(Box::new(dense));
        let counters = [
            self.among.map(Counter::Among),
            word.map(dense),
            self.table.map(dense),
        ];
        let mut all = Rules::default();
        for (counter, rules) in counters.into_iter().zip(self.rules) {
            if let Some(counter) = counter {
                let number = all.counters.len();
                all.counters.push(counter);
                all.rules
                    .extend(rules.into_iter().map(|rule| (number, rule)));
            }
        }
        all
    }
}

/// How far a file has come.
enum Phase {
    Fresh,
    Draft(Box<Draft>),
    Running(Box<Plan>),
    Published,
}

struct Reader {
    phase: Phase,
    limit: usize,
    cells: Cells,
}

/// The bytes that a line spells.
fn decode(text: &[u8], ended: bool) -> Result<Vec<u8>, Fault> {
    if !ended || text.is_empty() || text.len() > LONGEST_LINE {
        return Err(line_fault(1, 0));
    }
    let value = |c: &u8| match c {
        b'0'..=b'9' => Some(c - b'0'),
        b'a'..=b'f' => Some(c - b'a' + 10),
        _ => None,
    };
    if let Some(place) = text.iter().position(|c| value(c).is_none()) {
        return Err(line_fault(2, place));
    }
    if text.len() % 2 == 1 {
        return Err(line_fault(2, text.len()));
    }
    Ok(text
        .chunks(2)
        .filter_map(|pair| Some(16 * value(&pair[0])? + value(&pair[1])?))
        .collect())
}

/// Bytes of a length that the kind fixes.
fn fixed<const N: usize>(rest: &[u8]) -> Result<[u8; N], Fault> {
    rest.try_into().map_err(|_| frame_fault(4))
}

/// The first index at which something is wrong, as a fault of that number.
fn all<T>(items: &[T], number: u8, good: impl Fn(usize, &T) -> bool) -> Result<(), Fault> {
    match items
        .iter()
        .enumerate()
        .position(|(i, item)| !good(i, item))
    {
        Some(place) => Err(post_fault(number, place)),
        None => Ok(()),
    }
}

fn given_once(given: bool) -> Result<(), Fault> {
    if given {
        Err(post_fault(22, 0))
    } else {
        Ok(())
    }
}

fn read_word(duties: &[u8]) -> Result<Dense, Fault> {
    if !(1..=16).contains(&duties.len()) {
        return Err(post_fault(4, duties.len().min(16)));
    }
    all(duties, 9, |_, &duty| duty < 16)?;
    Ok(Dense::word(duties))
}

fn read_table(rest: &[u8]) -> Result<Dense, Fault> {
    let (&states, steps) = rest.split_first().ok_or(frame_fault(4))?;
    let states = usize::from(states);
    if steps.len() != 16 * states {
        return Err(post_fault(4, steps.len().min(16 * states)));
    }
    if !(1..=16).contains(&states) {
        return Err(post_fault(8, 0));
    }
    all(steps, 8, |_, &step| usize::from(step >> 4) < states)?;
    Ok(Dense::table(states, steps))
}

fn read_map(rest: &[u8]) -> Result<[u8; 16], Fault> {
    let classes = fixed::<16>(rest)?;
    all(&classes, 9, |_, &class| class < 16)?;
    Ok(classes)
}

/// A rule, and the family that it goes to.
fn read_rule(rest: &[u8], limit: usize) -> Result<(usize, Rule), Fault> {
    let (head, row) = rest.split_at_checked(10).ok_or(frame_fault(4))?;
    if !(1..=64).contains(&row.len()) {
        return Err(post_fault(4, row.len().min(64)));
    }
    all(row, 6, |_, &cell| usize::from(cell) < limit)?;
    all(row, 10, |i, cell| !row[..i].contains(cell))?;
    let family = match head[0] {
        3..=5 => usize::from(head[0] - 3),
        _ => return Err(post_fault(11, 0)),
    };
    let sense = Sense::from_number(head[1]).ok_or(post_fault(11, 0))?;
    let tally = u64::from_be_bytes(fixed(&head[2..])?);
    if tally == 0 {
        return Err(post_fault(12, 0));
    }
    Ok((
        family,
        Rule {
            row: row.to_vec(),
            sense,
            tally,
        },
    ))
}

impl Draft {
    fn post_rule(&mut self, family: usize, rule: Rule) -> Result<(), Fault> {
        if !self.has(family) {
            return Err(post_fault(23, 0));
        }
        if self.rules[family].len() >= FAMILY_RULES {
            return Err(post_fault(24, 0));
        }
        self.rules[family].push(rule);
        Ok(())
    }

    /// Takes one frame of the kinds 02 to 07.
    fn post(
        &mut self,
        kind: u8,
        rest: &[u8],
        limit: usize,
        cells: &mut Cells,
    ) -> Result<(), Fault> {
        match kind {
            0x02 => set_range(fixed(rest)?, limit, cells)?,
            0x03 => {
                let set = u16::from_be_bytes(fixed(rest)?);
                given_once(self.among.is_some())?;
                self.among = Some(Among(set));
            }
            0x04 => {
                let word = read_word(rest)?;
                given_once(self.word.is_some())?;
                self.word = Some(word);
            }
            0x05 => {
                let table = read_table(rest)?;
                given_once(self.table.is_some())?;
                self.table = Some(table);
            }
            0x06 => {
                let classes = read_map(rest)?;
                given_once(self.map.is_some())?;
                self.map = Some(classes);
            }
            _ => {
                let (family, rule) = read_rule(rest, limit)?;
                self.post_rule(family, rule)?;
            }
        }
        Ok(())
    }
}

fn set_range(
    [first, number, high, low]: [u8; 4],
    limit: usize,
    cells: &mut Cells,
) -> Result<(), Fault> {
    let first = usize::from(first);
    let end = first + usize::from(number);
    if number == 0 || end > limit {
        return Err(post_fault(6, 0));
    }
    let mask = u16::from_be_bytes([high, low]);
    if mask == 0 {
        return Err(post_fault(7, 0));
    }
    cells[first..end].fill(mask);
    Ok(())
}

fn failure_text(word: &str, Failure { rule, spot, work }: Failure) -> String {
    let runs = work.runs;
    match spot {
        Spot::Cell(cell) => format!("{word} rule {rule} cell {cell} runs {runs}"),
        Spot::Tally => format!("{word} rule {rule} tally {rule} runs {runs}"),
    }
}

fn work_text(Work { runs, removed }: Work) -> String {
    format!("ok runs {runs} removed {removed}")
}

/// What a try answered; `own` names the mask that it was about.
fn try_text(tried: Try, own: &str) -> String {
    match tried {
        Try::Settled(work) => work_text(work),
        Try::Failed(failure) => failure_text("fails", failure),
        Try::Own => format!("fails own {own} runs 0"),
    }
}

/// Makes one call on a running plan, and tells its answer.
fn call(plan: &mut Plan, kind: u8, rest: &[u8]) -> Result<String, Fault> {
    match kind {
        0x09 => {
            let [cell, high, low] = fixed(rest)?;
            let tried = plan.decide(usize::from(cell), u16::from_be_bytes([high, low]))?;
            Ok(format!(
                "decide {}",
                try_text(tried, &format!("cell {cell}"))
            ))
        }
        0x0a => {
            let [rule, tally @ ..] = fixed::<9>(rest)?;
            let tried = plan.bound(usize::from(rule), u64::from_be_bytes(tally))?;
            Ok(format!(
                "bound {}",
                try_text(tried, &format!("tally {rule}"))
            ))
        }
        0x0b => {
            fixed::<0>(rest)?;
            Ok(format!("mark ok level {}", plan.mark()?))
        }
        _ => {
            fixed::<0>(rest)?;
            Ok(format!("back ok level {}", plan.back()?))
        }
    }
}

/// Publishes the plan: its cells, and its rules with their figures.
fn publish(plan: Plan) -> String {
    let mut text = String::from("publish ok");
    let mut roster = plan.publish();
    for (cell, mask) in roster.cells().enumerate() {
        let _ = write!(text, "\ncell {cell} {mask:04x}");
    }
    for (rule, (tally, figures)) in roster.rules().into_iter().enumerate() {
        let _ = write!(text, "\nrule {rule} {tally:016x} ");
        let _ = match figures {
            Some(figures) => write!(text, "{} {}", figures.least, figures.greatest),
            None => write!(text, "none none"),
        };
    }
    text
}

impl Reader {
    fn new() -> Reader {
        Reader {
            phase: Phase::Fresh,
            limit: CELLS,
            cells: [u16::MAX; CELLS],
        }
    }

    fn size(&mut self, rest: &[u8]) -> Result<(), Fault> {
        let [limit] = fixed(rest)?;
        self.limit = usize::from(limit);
        if !(1..=CELLS).contains(&self.limit) {
            return Err(frame_fault(5));
        }
        self.phase = Phase::Draft(Box::default());
        Ok(())
    }

    /// Takes one frame, and tells what a call answered.
    fn take(&mut self, bytes: &[u8]) -> Result<Option<String>, Fault> {
        let Some((&kind @ 0x01..=0x0d, rest)) = bytes.split_first() else {
            return Err(frame_fault(3));
        };
        match (&mut self.phase, kind) {
            (Phase::Fresh, 0x01) => self.size(rest).map(|()| None),
            (Phase::Draft(draft), 0x02..=0x07) => draft
                .post(kind, rest, self.limit, &mut self.cells)
                .map(|()| None),
            (Phase::Draft(draft), 0x08) => {
                fixed::<0>(rest)?;
                let rules = std::mem::take(draft.as_mut()).into_rules();
                let (plan, started) = Plan::start(self.limit, self.cells, rules);
                self.phase = Phase::Running(Box::new(plan));
                Ok(Some(match started {
                    Ok(work) => format!("start {}", work_text(work)),
                    Err(failure) => format!("start {}", failure_text("void", failure)),
                }))
            }
            (Phase::Running(plan), 0x09..=0x0c) => call(plan, kind, rest).map(Some),
            (Phase::Running(_), 0x0d) => {
                fixed::<0>(rest)?;
                match std::mem::replace(&mut self.phase, Phase::Published) {
                    Phase::Running(plan) => Ok(Some(publish(*plan))),
                    _ => Err(frame_fault(21)),
                }
            }
            _ => Err(frame_fault(21)),
        }
    }
}

/// Carries out a file: the text that it prints, and whether it was read to its end.
pub fn carry_out(file: &[u8]) -> (String, bool) {
    let mut out = String::new();
    let mut reader = Reader::new();
    for (number, line) in (1..).zip(file.split_inclusive(|&c| c == b'\n')) {
        let (text, ended) = match line.strip_suffix(b"\n") {
            Some(text) => (text, true),
            None => (line, false),
        };
        match decode(text, ended).and_then(|bytes| reader.take(&bytes)) {
            Ok(Some(answer)) => {
                let _ = writeln!(out, "{number} {answer}");
            }
            Ok(None) => {}
            Err(Fault {
                number: reason,
                layer,
                place,
            }) => {
                let _ = writeln!(out, "{number} refused {reason} {} {place}", layer.name());
                if layer != Layer::Plan {
                    return (out, false);
                }
            }
        }
    }
    (out, true)
}
