//! Lists of servers as JSON, written by the proved library and by the independent implementation:
//! every code and byte must be the same, and what is written is read as it was meant.

mod support;

use independent::list_text;
use independent::list_writing::{self, Written};
use support::answers::Answer;
use support::list_answers::{self as asking, buffer};
use support::list_parts::{lines, Owned};
use support::list_trees::{self as trees};
use support::list_words as words;
use support::tally::Tally;
use support::{counted, Xorshift};

const SERVER: &str = "a server";
const LIST: &str = "a list";

/// One server each, and whole lists.
const SERVERS: usize = 20_000;
const LISTS: usize = 20_000;

struct Comparison {
    tally: Tally,
    random: Xorshift,
    read_back: usize,
}

/// What is no UTF-8.
const NO_UTF8: [&[u8]; 6] =
    [b"\x80", b"\xc0\x80", b"\xed\xa0\x80", b"\xf4\x90\x80\x80", b"\xe2\x82", b"\xff"];

/// Lines that are none, or not whole.
const NO_LINES: &[&[u8]] = &[
    b"\n",
    b"udp\n",
    b"udp \n",
    b"udp a:1",
    b"udp  a:1\n",
    b"UDP a:1\n",
    b"udp\ta:1\n",
    b"sctp a:1\n",
    b"tcp a:1\r\n",
    b" udp a:1\n",
    b"udp a:1 \n",
    b"udp a:65536\n",
    b"udp [::1%1]:1\n",
    b"a:1\n",
    b"u",
    b"tcp",
];

impl Comparison {
    /// A name with a byte that is no character, or a line that is none.
    fn spoil(&mut self, name: &mut Vec<u8>, lines: &mut Vec<u8>) {
        let random = &mut self.random;
        match random.below(3) {
            0 => {
                let at = random.below(name.len() + 1);
                let wrong = random.pick(&NO_UTF8);
                name.splice(at..at, wrong.iter().copied());
            }
            1 => lines.extend(random.pick(NO_LINES)),
            _ => lines.extend(format!("udp {}\n", words::no_address(random)).into_bytes()),
        }
    }

    /// More addresses than a server may have.
    fn crowd(&mut self, lines: &mut Vec<u8>) {
        let random = &mut self.random;
        for _ in 0..9 + random.below(3) {
            lines.extend(format!("tcp {}\n", words::address(random)).into_bytes());
        }
    }

    fn server(&mut self) {
        let server = trees::server(&mut self.random);
        let (mut name, mut lines) = (server.name.clone(), lines(&server));
        let (wrong, crowded) = (self.random.once_in(4), self.random.once_in(8));
        if crowded {
            self.crowd(&mut lines);
        }
        if wrong {
            self.spoil(&mut name, &mut lines);
        }
        let version = self.random.pick(&[1, 1, 1, 0, 9, 10, 2_147_483_660, u32::MAX]);
        let key = self.random.array();
        let asked = Written { name: &name, version, key: &key, addresses: &lines };
        let needed = list_writing::server(&asked).map_or(50, |text| text.len());
        let before = buffer(&mut self.random, needed);
        let both = asking::write_server(&asked, &before);
        let due = match (wrong, crowded) {
            (true, _) => 24,
            (_, true) => 25,
            _ if before.len() < needed => 19,
            _ => 0,
        };
        self.tally.answer(SERVER, &both, Some(due), || format!("{asked:?}"));
        if both.ours.code() == 0 {
            let list = [b"{\"servers\":[", &both.ours.buffer[..needed], b"]}"].concat();
            let read = list_text::read(&list).expect("it is a list");
            let told = &read.servers[0];
            let same = told.name == name && told.key[..] == key[..];
            let same = same && told.version == version.to_string().into_bytes();
            if !same || told.addresses != server.addresses {
                self.tally.differs(format!("{asked:?} is read as {read:?}"));
            }
            self.read_back += 1;
        }
    }

    fn list(&mut self) {
        let mut listed = trees::listed(&mut self.random);
        for server in &mut listed.servers {
            server.key.resize(32, 9);
        }
        let mut parts = Owned::of(&listed);
        let wrong = self.random.below(12);
        let mut due = match wrong {
            0 => self.lengths(&mut parts),
            1 | 2 => self.wrong_text(&mut parts),
            3 => self.wrong_size(&mut parts),
            _ => 0,
        };
        // The first that applies counts.
        if wrong == 0 && self.random.once_in(2) {
            parts.reports = b"http://a".to_vec();
        }
        if (wrong == 1 || wrong == 2) && self.random.once_in(4) {
            self.wrong_size(&mut parts);
        }
        let needed = list_writing::list_of(&parts.lent()).map_or(50, |text| text.len());
        let before = buffer(&mut self.random, needed);
        if due == 0 && before.len() < needed {
            due = 19;
        }
        let both = asking::write_servers(&parts.lent(), &before);
        self.tally.answer(LIST, &both, Some(due), || format!("{parts:?}"));
        if both.ours.code() == 0 {
            let read = list_text::read(&both.ours.buffer[..needed]).expect("it is a list");
            let back = Owned::of(&read);
            if back != parts {
                self.tally.differs(format!("{parts:?} is read as {back:?}"));
            }
            self.read_back += 1;
        }
    }

    /// Keys or lengths that are not those of so many servers: 21.
    fn lengths(&mut self, parts: &mut Owned) -> u32 {
        let random = &mut self.random;
        let lengths = [&mut parts.name_lengths, &mut parts.address_lengths];
        let one = random.below(2);
        let place = random.below(lengths[one].len());
        match random.below(6) {
            0 => parts.keys.push(0),
            1 => {
                parts.keys.pop();
            }
            2 => parts.versions.push(1),
            3 => {
                lengths[one][place] = lengths[one][place].wrapping_add(random.pick(&[1, u32::MAX]))
            }
            4 => lengths[one].push(0),
            _ => {
                // Their sum would be right, if it were one of 32 bits.
                let more = lengths[one][place];
                lengths[one][place] = u32::MAX;
                lengths[one].push(more.wrapping_add(1));
                parts.versions.push(1);
                parts.keys.extend([0; 32]);
            }
        }
        21
    }

    /// 24, by a part of the first server or of the last, or by a URL.
    fn wrong_text(&mut self, parts: &mut Owned) -> u32 {
        match self.random.below(4) {
            // No reports at all are not wrong.
            0 => parts.reports = format!("{} ", words::no_url(&mut self.random)).into_bytes(),
            1 => {
                let url = words::no_url(&mut self.random);
                parts.sources.extend(format!("{url}\n").into_bytes());
            }
            2 => parts.sources.extend(b"https://a.example/"),
            _ => {
                let (mut name, mut lines) = (vec![], vec![]);
                self.spoil(&mut name, &mut lines);
                append(parts, &name, &lines);
            }
        }
        24
    }

    /// 25, by the number of servers or of addresses.
    fn wrong_size(&mut self, parts: &mut Owned) -> u32 {
        let mut lines = vec![];
        match self.random.below(2) {
            0 => {
                while parts.versions.len() < 65 {
                    append(parts, b"more", b"");
                }
            }
            _ => {
                self.crowd(&mut lines);
                append(parts, b"crowded", &lines);
            }
        }
        25
    }
}

/// One server more.
fn append(parts: &mut Owned, name: &[u8], lines: &[u8]) {
    parts.versions.push(1);
    parts.keys.extend([5; 32]);
    parts.names.extend(name);
    parts.name_lengths.push(name.len() as u32);
    parts.addresses.extend(lines);
    parts.address_lengths.push(lines.len() as u32);
}

#[test]
fn both_sides_write_the_same() {
    let mut seen = Comparison {
        tally: Tally::new(&[SERVER, LIST]),
        random: Xorshift::new(0x5eed_0803),
        read_back: 0,
    };
    (0..SERVERS).for_each(|_| seen.server());
    (0..LISTS).for_each(|_| seen.list());
    println!(
        "servers and lists, ours compared with independent; how often each code was given:\n{}",
        seen.tally.table("code")
    );
    println!("{} of them were read back", seen.read_back);
    seen.tally.no_difference();
    seen.tally.at_least(500, SERVER, [0, 19, 24, 25]);
    seen.tally.at_least(500, LIST, [0, 19, 21, 24, 25]);
    counted(seen.tally.answers(), "servers and lists of servers to be written");
}
