//! What twice the bytes take: none of what is timed grows faster than what it is given.

use crate::inputs;
use crate::limits;
use crate::lists;
use crate::operations::{self as op, Input, Operation};
use crate::piles::{Shape, FULL};
use crate::run::Run;
use crate::sides::{Side, Subject};
use crate::table::{count, number, Table};
use crate::texts::Report;
use crate::{hashes, inputs::signature};

/// An operation with inputs, each twice as long as the one before.
struct Case {
    operation: Operation,
    of: String,
    inputs: Vec<Input>,
}

fn case(operation: Operation, of: &str, inputs: impl IntoIterator<Item = Input>) -> Case {
    Case { operation, of: of.into(), inputs: inputs.into_iter().collect() }
}

fn pile(records: usize) -> Input {
    let made = Shape { records, ..FULL }.made();
    Input::new("full records", vec![made.pile, made.answers])
}

fn exchange(packet: usize) -> Input {
    let link = Shape { records: 1, siblings: 0, packet }.links().swap_remove(0);
    let request = link.request(&[]);
    let response = link.response(&request, &[]).packet();
    Input::new("packets", vec![request, response])
}

fn to_be_signed(length: usize) -> Input {
    Input::new("bytes", vec![vec![7; 32], hashes::bytes(length)])
}

fn text(records: usize) -> Input {
    Input::new("full records", vec![Report::of(records).text, vec![1; 2 * records]])
}

fn list(servers: usize) -> Input {
    Input::new("servers", vec![lists::list(servers)])
}

/// Those texts that could take a reader long, at two lengths, each kind by itself.
fn kinds(operation: Operation, of: fn(usize) -> Vec<Input>) -> Vec<Case> {
    let both = of(1 << 17).into_iter().zip(of(1 << 18));
    both.filter(|(less, more)| less.bytes() < more.bytes())
        .map(|(less, more)| case(operation, &less.name.clone(), [less, more]))
        .collect()
}

fn cases() -> Vec<Case> {
    let records = |count| inputs::servers("not there", count, None);
    let message = |length| Input::new("bytes", vec![hashes::bytes(length)]);
    vec![
        case(op::CHECK_RESPONSE, "packets", [500, 1_000, 2_000].map(exchange)),
        // From two records on: of one there is no link to hash.
        case(op::CHECK_REPORT, "records", [2, 4, 8, 16].map(pile)),
        case(op::CUT_RUN, "records", [2, 4, 8, 16].map(pile)),
        case(op::WRITE_REPORT, "records", [2, 4, 8, 16].map(pile)),
        case(op::READ_REPORT, "records", [2, 4, 8, 16].map(text)),
        case(op::CUT_TEXT, "records", [2, 4, 8, 16].map(text)),
        case(op::READ_SERVERS, "servers", [8, 16, 32, 64].map(list)),
        case(op::ROWS, "leaves", [64, 128, 256, 512, 1024].map(inputs::leaves)),
        case(op::FIND_SERVER, "servers", [256, 512, 1024, 2048].map(records)),
        case(op::VERIFY, "text", [1 << 16, 1 << 17, 1 << 18].map(signature)),
        case(op::SIGN, "text", [1 << 16, 1 << 17, 1 << 18].map(to_be_signed)),
        case(op::SHA512, "message", [1 << 14, 1 << 15, 1 << 16].map(message)),
    ]
}

/// What came of a case: the nanoseconds a byte of the shortest input and of the longest, and the
/// most that one doubling took, by what the bytes grew.
struct Grown {
    first: f64,
    last: f64,
    most: f64,
}

impl Case {
    fn grown(&self, run: &mut Run) -> Grown {
        let a_byte = |time: f64, input: &Input| time * 1e9 / input.bytes() as f64;
        let mut grown = Grown { first: 0.0, last: 0.0, most: 0.0 };
        for pair in self.inputs.windows(2) {
            let works = vec![
                (Side::Ours, (self.operation.ours)(&pair[1].parts)),
                (Side::Half, (self.operation.ours)(&pair[0].parts)),
            ];
            let twice = pair[1].bytes() as f64 / pair[0].bytes() as f64 / 2.0;
            let name = format!("{} of {} bytes, {}", self.operation.name, pair[1].bytes(), self.of);
            let highest = limits::highest("doubled") * twice;
            let subject = Subject::new(name, pair[1].bytes(), works);
            let measured = run.time(subject.held_to(Side::Half, "doubled", highest));
            let half = measured.time(Side::Half).expect("it was timed");
            if grown.first == 0.0 {
                grown.first = a_byte(half, &pair[0]);
            }
            grown.last = a_byte(measured.ours(), &pair[1]);
            grown.most = grown.most.max(measured.ours() / half / twice);
        }
        grown
    }

    fn row(&self, Grown { first, last, most }: &Grown) -> Vec<String> {
        let ends = [&self.inputs[0], &self.inputs[self.inputs.len() - 1]];
        let [from, to] = ends.map(|input| count(input.bytes()));
        let numbers = [number(*first, 2), number(*last, 2), number(*most, 2)];
        [self.operation.name.to_string(), self.of.clone(), from, to]
            .into_iter()
            .chain(numbers)
            .collect()
    }
}

pub fn part(run: &mut Run) {
    let title = "twice the bytes by once the bytes, and nanoseconds a byte at both ends";
    let head = ["Operation", "more", "from bytes", "to", "ns a byte", "at the end", "doubled"];
    let mut table = Table::new("doubled", title, &head);
    for case in cases() {
        let grown = case.grown(run);
        table.row(case.row(&grown));
    }
    table.row(most(run, kinds(op::READ_REPORT, inputs::texts)));
    table.row(most(run, kinds(op::READ_SERVERS, inputs::lists)));
    tell(run, &table);
    run.put(table);
}

/// The line of the case that grew the most.
fn most(run: &mut Run, cases: Vec<Case>) -> Vec<String> {
    let grown: Vec<(Case, Grown)> =
        cases.into_iter().map(|case| (case.grown(run), case)).map(|(g, c)| (c, g)).collect();
    let most = grown.iter().max_by(|a, b| a.1.most.total_cmp(&b.1.most)).expect("there are texts");
    let mut row = most.0.row(&most.1);
    row[1] = format!("{} (of {} kinds)", row[1], grown.len());
    row
}

/// The most that a doubling took.
fn tell(run: &mut Run, table: &Table) {
    let last = |row: &Vec<String>| row[row.len() - 1].parse::<f64>().unwrap_or(0.0);
    let most = table.rows.iter().max_by(|a, b| last(a).total_cmp(&last(b)));
    if let Some(row) = most {
        let (most, [name, of]) = (last(row), [&row[0], &row[1]]);
        let text = format!(
            "Twice the bytes took {most:.2} times as long at the most ({name}, {of}); above {} the \
             run fails, so that none of these grows faster than what it is given.",
            limits::highest("doubled")
        );
        run.say("grown", &text);
    }
}
