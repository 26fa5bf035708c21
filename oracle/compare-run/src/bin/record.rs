//! `record FOLDER`: writes the recorded calls to FOLDER/stdin and their outcomes to FOLDER/stdout. An outcome is hybit's where
//! its Rust can judge and the model's elsewhere, never the library's. The files are the same byte for byte each time.

use calls::{Below, Call, Outcome};
use compare_run::parts::{KINDS, Part, kind, parts, parts_below};
use compare_run::text::{below_line, call_line, length, longest_list, outcome_line};
use compare_run::{Sink, cases, random, rng::Rng, worked};
use judges::hybit::{self, Reason};
use std::collections::{BTreeMap, BTreeSet};
use std::process::ExitCode;

const SEED: u64 = 20_261_116;
const BLOCK: usize = 65_536;
/// The line that ends a block: a number past all kinds.
const END: &str = "999\n";
/// The most places of a list in a random call, of any list and of a mask's words: `ROOM` and `MASK_ROOM` of the program that
/// replays the calls.
const LONGEST_LIST: usize = 40;
const ROOM: usize = 4096;
const MASK_ROOM: usize = 16_385;
/// The kinds of call that are handed masks alone come first.
const MASK_KINDS: usize = 13;
/// How many calls are looked at, and how many of each sort are kept.
const LOOKED_AT: usize = 1_500_000;
const ACCEPTED: usize = 1;
const REFUSED: usize = 1;
/// The same of the last kinds, from `NEW_KINDS` on: the others have more named cases.
const NEW_ACCEPTED: usize = 3;
const NEW_REFUSED: usize = 2;
const NEW_KINDS: usize = 69;
/// The products' vectors keep their matrices below 41 columns, so that these are few sorts.
const PRODUCTS: usize = 8;

/// What makes two calls of the same sort: the kind, the refusal, the column count's class, why the Rust was no judge.
type Sort = (usize, u32, usize, Option<usize>);

#[derive(Default)]
struct Record {
    looked_at: usize,
    kept: BTreeMap<Sort, usize>,
    of_a_kind: BTreeMap<usize, usize>,
    seen: BTreeSet<String>,
    cases: usize,
    lines: Vec<Line>,
    disagreements: usize,
}

/// The class of the largest size among the call's first two, or of its one number: the boundaries each have their own.
fn class(call: &Call) -> usize {
    let mut copy = call.clone();
    let all = parts(&mut copy);
    let sizes = all.iter().filter_map(|part| match part {
        Part::Size(n) => Some(**n),
        Part::Num8(n) => Some((**n).into()),
        Part::Num32(n) => Some(**n as usize),
        Part::Num64(n) => Some(n.count_ones() as usize * 2),
        _ => None,
    });
    match sizes.take(2).max().unwrap_or(0) {
        0 => 0,
        1..63 => 1,
        63 => 2,
        64 => 3,
        65 => 4,
        66..128 => 5,
        128 => 6,
        129 => 7,
        _ => 8,
    }
}

impl Record {
    fn judge(&mut self, call: &Call) -> (Outcome, Option<Reason>) {
        let by_model = model::judge(call);
        match hybit::judge(call) {
            Ok(outcome) => {
                if outcome != by_model {
                    eprintln!("hybit and the model disagree on {call:?}");
                    self.disagreements += 1;
                }
                (outcome, None)
            }
            Err(reason) => (by_model, Some(reason)),
        }
    }

    fn keep(&mut self, call: &Call, wanted: bool) {
        if longest_list(call) > LONGEST_LIST {
            return;
        }
        let n = kind(call);
        let (outcome, reason) = self.judge(call);
        let sort = (n, outcome.number, class(call), reason.map(|r| r as usize));
        let most = match (outcome.number, call) {
            (0, Call::Csr32Apply(..))
            | (0, Call::MetadataFirstSparseDotRow(..) | Call::MetadataFirstSparseDotRows(..)) => {
                PRODUCTS
            }
            (0, _) if n < NEW_KINDS => ACCEPTED,
            (0, _) => NEW_ACCEPTED,
            _ if n < NEW_KINDS => REFUSED,
            _ => NEW_REFUSED,
        };
        let kept = self.kept.entry(sort).or_default();
        if *kept >= most && !wanted {
            return;
        }
        let line = call_line(call);
        if self.seen.insert(line.clone()) {
            *kept += 1;
            *self.of_a_kind.entry(n).or_default() += 1;
            self.lines.push((n, line, outcome_line(&outcome)));
        }
    }

    /// A named case, whatever its lists, as long as the program that replays it has room for them.
    fn keep_case(&mut self, call: &Call) {
        let n = kind(call);
        let words = if n < MASK_KINDS { MASK_ROOM } else { ROOM };
        assert_room(&parts(&mut call.clone()), words);
        let (outcome, _) = self.judge(call);
        self.add_case(n, call_line(call), &outcome);
    }

    /// A named case of the crates below, which the model alone judges.
    fn keep_below(&mut self, call: &Below) {
        assert_room(&parts_below(&mut call.clone()), ROOM);
        let outcome = model::judge_below(call);
        self.add_case(call.number(), below_line(call), &outcome);
    }

    fn add_case(&mut self, n: usize, line: String, outcome: &Outcome) {
        assert!(line.len() + 1 + END.len() <= BLOCK, "too long: {line:.99}");
        if self.seen.insert(line.clone()) {
            self.cases += 1;
            self.lines.push((n, line, outcome_line(outcome)));
        }
    }
}

/// No list is longer than the program has room for; `words` is the room of lists of 64 bits.
fn assert_room(parts: &[Part<'_>], words: usize) {
    for part in parts {
        let room = if matches!(part, Part::Nums64(_)) {
            words
        } else {
            ROOM
        };
        assert!(length(part) <= room, "a list of {} places", length(part));
    }
}

impl Sink for Record {
    fn call(&mut self, call: &Call) {
        self.looked_at += 1;
        self.keep(call, false);
    }

    fn done(&self) -> bool {
        self.looked_at >= LOOKED_AT
    }
}

/// One call: its number, its line, its outcome's line.
type Line = (usize, String, String);

/// The calls shared out to blocks: each goes to the first block with room for it and for `END`.
fn shared_out(lines: Vec<Line>) -> Vec<Vec<Line>> {
    let mut blocks: Vec<(usize, Vec<Line>)> = Vec::new();
    for line in lines {
        let need = line.1.len() + 1;
        let block = match blocks.iter().position(|(room, _)| need <= *room) {
            Some(block) => block,
            None => {
                blocks.push((BLOCK - END.len(), Vec::new()));
                blocks.len() - 1
            }
        };
        blocks[block].0 -= need;
        blocks[block].1.push(line);
    }
    blocks.into_iter().map(|(_, lines)| lines).collect()
}

/// The calls of the blocks, which the program reads one at a time: each has its lines, `END`, and line feeds to fill it; the last
/// isn't filled.
fn text(blocks: &[Vec<Line>]) -> String {
    let mut text = String::new();
    for (n, block) in blocks.iter().enumerate() {
        text += &"\n".repeat(n * BLOCK - text.len());
        for (_, line, _) in block {
            text += line;
            text.push('\n');
        }
        text += END;
    }
    text
}

fn main() -> ExitCode {
    let Some(folder) = std::env::args().nth(1) else {
        eprintln!("record FOLDER");
        return ExitCode::from(2);
    };
    let mut record = Record::default();
    for call in worked::calls() {
        record.keep(&call, true);
    }
    random::forever(&mut record, model::judge, &mut Rng::new(SEED));
    for call in cases::calls() {
        record.keep_case(&call);
    }
    for call in cases::calls_below() {
        record.keep_below(&call);
    }
    let (all, cases) = (record.lines.len(), record.cases);
    record.lines.sort_by_key(|line| line.0);
    let blocks = shared_out(record.lines);
    let outcomes: String = blocks
        .iter()
        .flatten()
        .map(|l| format!("{}\n", l.2))
        .collect();
    std::fs::write(format!("{folder}/stdin"), text(&blocks)).expect("a folder to write to");
    std::fs::write(format!("{folder}/stdout"), outcomes).expect("a folder to write to");
    println!("{all} calls, {cases} of them named cases");
    if record.disagreements == 0 && record.of_a_kind.len() == KINDS {
        ExitCode::SUCCESS
    } else {
        ExitCode::FAILURE
    }
}
