//! The slowest input of each operation that we could make, by the time that a byte of it takes,
//! beside a usual one of the same size.

use crate::inputs;
use crate::limits;
use crate::lists;
use crate::operations::{self as op, Input, Operation};
use crate::run::Run;
use crate::sides::{Side, Subject};
use crate::table::{count, number, or_none, Table};

/// An operation with a usual input, and those among which the slowest is sought. Where it has
/// limits, each of them is held to them; one by the usual input is for a byte of either.
struct Case {
    operation: Operation,
    usual: Input,
    others: Vec<Input>,
    limits: &'static [(Side, &'static str)],
}

fn case(operation: Operation, usual: Input, others: Vec<Input>) -> Case {
    Case { operation, usual, others, limits: &[] }
}

/// Those of reading a report.
const TEXTS: &[(Side, &str)] = &[(Side::Independent, "worst_text"), (Side::Usual, "worst_usual")];

/// That of reading a list of servers.
const LISTS: &[(Side, &str)] = &[(Side::Independent, "worst_list")];

fn cases() -> Vec<Case> {
    let exchange = || (inputs::usual_exchange(), inputs::exchanges());
    let ((usual, others), (checked, check)) = (exchange(), exchange());
    let text = inputs::usual_text();
    let (length, (signed, full)) = (text.bytes(), inputs::signed_piles());
    let list = inputs::usual_list();
    let lists = inputs::lists(list.bytes());
    lists.iter().for_each(|input| lists::agree(&input.parts[0]));
    vec![
        case(op::READ_REQUEST, request(), inputs::requests()),
        case(op::READ_RESPONSE, usual, others),
        case(op::CHECK_RESPONSE, checked, check),
        case(op::CHECK_REPORT, inputs::usual_pile(), inputs::piles()),
        case(op::CUT_RUN, inputs::usual_pile(), inputs::piles()),
        case(op::CUT_SIGNED_RUN, signed, full),
        Case { limits: TEXTS, ..case(op::READ_REPORT, text, inputs::texts(length)) },
        case(op::CUT_TEXT, inputs::usual_text(), inputs::texts(length)),
        Case { limits: LISTS, ..case(op::READ_SERVERS, list, lists) },
        case(op::WRITE_REPORT, inputs::usual_pile(), inputs::piles()),
        case(op::ROWS, inputs::leaves(512), vec![inputs::leaves(513)]),
        Case {
            limits: &[(Side::Independent, "find_server")],
            ..case(op::FIND_SERVER, found(), vec![lost()])
        },
        case(op::VERIFY, inputs::signature(1_000), vec![inputs::dense_signature(1_000)]),
    ]
}

/// The request of the usual exchange.
fn request() -> Input {
    let mut input = inputs::usual_exchange();
    input.parts.truncate(1);
    input
}

fn found() -> Input {
    inputs::servers("in the middle", 256, Some(128))
}

fn lost() -> Input {
    inputs::servers("not there, all nearly alike", 256, None)
}

impl Case {
    /// The slowest of the inputs by the byte, at a glance.
    fn slowest(&self, run: &Run) -> &Input {
        let each = self.others.iter().map(|input| {
            let seconds = run.glance((self.operation.ours)(&input.parts));
            (input, seconds / input.bytes() as f64)
        });
        each.max_by(|a, b| a.1.total_cmp(&b.1)).expect("there is one").0
    }

    /// An input beside the usual one.
    fn subject<'a>(&'a self, name: String, input: &'a Input) -> Subject<'a> {
        let Operation { ours, theirs, .. } = &self.operation;
        let works = vec![
            (Side::Ours, ours(&input.parts)),
            (Side::Usual, ours(&self.usual.parts)),
            (Side::Independent, theirs(&input.parts)),
        ];
        let longer = input.bytes() as f64 / self.usual.bytes() as f64;
        let held = |subject: Subject<'a>, &(side, limit): &(Side, &'static str)| {
            let times = if side == Side::Usual { longer } else { 1.0 };
            subject.held_to(side, limit, limits::highest(limit) * times)
        };
        self.limits.iter().fold(Subject::new(name, input.bytes(), works), held)
    }

    /// Times each input, where there are limits.
    fn hold_all(&self, run: &mut Run) {
        for input in self.others.iter().filter(|_| !self.limits.is_empty()) {
            run.time(self.subject(format!("{} of {}", self.operation.name, input.name), input));
        }
    }

    fn row(&self, run: &mut Run) -> Vec<String> {
        let (Operation { name, .. }, slowest) = (&self.operation, self.slowest(run));
        let measured = run.time(self.subject(name.to_string(), slowest));
        let a_byte = |time: f64, input: &Input| time * 1e9 / input.bytes() as f64;
        let worst = a_byte(measured.ours(), slowest);
        let usual = measured.time(Side::Usual).map(|time| a_byte(time, &self.usual));
        vec![
            name.to_string(),
            format!("{} (of {})", slowest.name, self.others.len()),
            count(slowest.bytes()),
            or_none(usual.map(|usual| number(usual, 2))),
            number(worst, 2),
            or_none(usual.map(|usual| number(worst / usual, 2))),
            measured.ratio_text(Side::Independent),
        ]
    }
}

pub fn part(run: &mut Run) {
    let title =
        "the slowest of some inputs by a usual one, in nanoseconds a byte; the last column \
                 is ours by the independent one on the slowest";
    let head = ["Operation", "slowest input", "bytes", "usual", "slowest", "by usual", "by ind."];
    let mut table = Table::new("worst", title, &head);
    for case in cases() {
        case.hold_all(run);
        let row = case.row(run);
        table.row(row);
    }
    run.put(table);
}
