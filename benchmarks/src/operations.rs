//! Operations over inputs that are nothing but bytes, by ours and by the independent
//! implementation, so that inputs can be compared.

use crate::sides::{work, Work};
use crate::{lists, texts, trees};
use independent::ed25519::Ed25519;
use independent::{check, report, report_text, request, response, servers, signed};
use std::hint::black_box;
use trawlbeacon::{SigningKey, LONGEST_REPORT};

/// An input: what it is made of, and its parts in the order of the operation's arguments.
pub struct Input {
    pub name: String,
    pub parts: Vec<Vec<u8>>,
}

impl Input {
    pub fn new(name: impl Into<String>, parts: Vec<Vec<u8>>) -> Self {
        Input { name: name.into(), parts }
    }

    pub fn bytes(&self) -> usize {
        self.parts.iter().map(Vec::len).sum()
    }
}

/// One call on the parts of an input, on either side.
type Call = for<'a> fn(&'a [Vec<u8>]) -> Work<'a>;

#[derive(Clone, Copy)]
pub struct Operation {
    pub name: &'static str,
    pub ours: Call,
    pub theirs: Call,
}

pub const READ_REQUEST: Operation = Operation {
    name: "`tb_read_request`",
    ours: |parts| work(move || trawlbeacon::read_request(black_box(&parts[0]))),
    theirs: |parts| work(move || request::read(black_box(&parts[0]))),
};

pub const READ_RESPONSE: Operation = Operation {
    name: "`tb_read_response`",
    ours: |parts| work(move || trawlbeacon::read_response(black_box(&parts[1]))),
    theirs: |parts| work(move || response::read(black_box(&parts[1])).map(|_| ())),
};

pub const CHECK_RESPONSE: Operation = Operation {
    name: "`tb_check_response`",
    ours: |parts| {
        work(move || trawlbeacon::check_response(black_box(&parts[0]), &parts[1], true, true))
    },
    theirs: |parts| work(move || check::check(black_box(&parts[0]), &parts[1], true, true)),
};

pub const CHECK_REPORT: Operation = Operation {
    name: "`tb_check_report`",
    ours: |parts| work(move || trawlbeacon::check_report(black_box(&parts[0]), &parts[1])),
    theirs: |parts| work(move || report::check(black_box(&parts[0]), &parts[1])),
};

pub const CUT_RUN: Operation = Operation {
    name: "`tb_cut_run`",
    ours: |parts| {
        let mut out = vec![0; parts[0].len()];
        work(move || trawlbeacon::cut_run(black_box(&parts[0]), &parts[1], &mut out))
    },
    theirs: |parts| {
        let mut out = vec![0; parts[0].len()];
        work(move || report::cut(black_box(&parts[0]), &parts[1], &mut out))
    },
};

pub const CUT_SIGNED_RUN: Operation = Operation {
    name: "`tb_cut_signed_run`",
    ours: |parts| {
        let mut out = vec![0; parts[0].len()];
        work(move || trawlbeacon::cut_signed_run(black_box(&parts[0]), &mut out))
    },
    theirs: |parts| {
        let (ed25519, mut out) = (Ed25519::new(), vec![0; parts[0].len()]);
        work(move || signed::cut(&ed25519, black_box(&parts[0]), &mut out))
    },
};

pub const READ_REPORT: Operation = Operation {
    name: "`tb_read_report`",
    ours: |parts| {
        let [ours, _] = texts::read(&parts[0]);
        ours
    },
    theirs: |parts| {
        let [_, theirs] = texts::read(&parts[0]);
        theirs
    },
};

pub const READ_SERVERS: Operation = Operation {
    name: "`tb_read_servers`",
    ours: |parts| {
        let [ours, _] = lists::read(&parts[0]);
        ours
    },
    theirs: |parts| {
        let [_, theirs] = lists::read(&parts[0]);
        theirs
    },
};

pub const CUT_TEXT: Operation = Operation {
    name: "`tb_cut_text`",
    ours: |parts| {
        let mut out = vec![0; LONGEST_REPORT];
        work(move || trawlbeacon::cut_text(black_box(&parts[0]), &parts[1], &mut out))
    },
    theirs: |parts| work(move || report_text::cut(black_box(&parts[0]), &parts[1])),
};

pub const WRITE_REPORT: Operation = Operation {
    name: "`tb_write_report`",
    ours: |parts| {
        let mut out = vec![0; LONGEST_REPORT];
        work(move || trawlbeacon::write_report(black_box(&parts[0]), &parts[1], &mut out))
    },
    theirs: |parts| work(move || report_text::write(black_box(&parts[0]), &parts[1])),
};

pub const ROWS: Operation = Operation {
    name: "`tb_rows`",
    ours: |parts| trees::all_rows(&parts[0]),
    theirs: |parts| {
        work(move || independent::tree::Tree::build(black_box(&parts[0])).map(|tree| tree.bytes()))
    },
};

pub const FIND_SERVER: Operation = Operation {
    name: "`tb_find_server`",
    ours: |parts| {
        let srv = parts[2][..].try_into().expect("32 bytes");
        work(move || trawlbeacon::find_server(black_box(&parts[0]), &parts[1], srv).is_ok())
    },
    theirs: |parts| {
        let srv = parts[2][..].try_into().expect("32 bytes");
        work(move || servers::find(black_box(&parts[0]), &parts[1], srv).is_ok())
    },
};

pub const VERIFY: Operation = Operation {
    name: "`tb_verify`",
    ours: |parts| work(move || trawlbeacon::verify(black_box(&parts[0]), &parts[1], &parts[2])),
    theirs: |parts| {
        let ed25519 = Ed25519::new();
        work(move || ed25519.verify(black_box(&parts[0]), &parts[1], &parts[2]))
    },
};

pub const SIGN: Operation = Operation {
    name: "`tb_sign`",
    ours: |parts| {
        let key = SigningKey::new(parts[0][..].try_into().expect("32 bytes"));
        work(move || key.sign(black_box(&parts[1])))
    },
    theirs: |parts| {
        let ed25519 = Ed25519::new();
        let secret = ed25519.secret(parts[0][..].try_into().expect("32 bytes"));
        work(move || ed25519.sign(&secret, black_box(&parts[1])))
    },
};

pub const SHA512: Operation = Operation {
    name: "`tb_sha512`",
    ours: |parts| work(move || trawlbeacon::sha512(black_box(&parts[0]))),
    theirs: |parts| work(move || independent::sha512::sha512(black_box(&parts[0]))),
};
