//! Lists of servers as JSON, read and written.

use crate::any_answers::Answer;
use crate::any_exports::{export, Codes, Export, Stack::Least};
use crate::any_trial::{Copies, Id, Trial, Use};
use crate::support::list_parts::Owned;
use independent::list_text;
use trawlbeacon::raw::{self, tb_size};

pub const EXPORTS: &[Export] = &[
    export("tb_read_servers", Least, 12_000, &[(0, 0), (19, 19), (24, 25)], read_servers),
    export("tb_server_name", Least, 12_000, BY_PLACE, server_name),
    export("tb_server_address", Least, 12_000, BY_PLACE, server_address),
    export("tb_list_source", Least, 12_000, BY_PLACE, list_source),
    export("tb_list_reports", Least, 12_000, BY_PLACE, list_reports),
    export("tb_write_server", Least, 12_000, &[(0, 0), (19, 19), (24, 25)], write_server),
    export(
        "tb_write_servers",
        Least,
        12_000,
        &[(0, 0), (19, 19), (21, 21), (24, 25)],
        write_servers,
    ),
];

const BY_PLACE: &[Codes] = &[(0, 0), (19, 19), (24, 25), (36, 36)];

/// A text, a place or two, and a buffer for what stands there.
struct Asked {
    text: Id,
    place: tb_size,
    which: tb_size,
    out: Id,
}

impl Asked {
    fn new(t: &mut Trial, needed: usize) -> Self {
        let (text, room) = (t.make.list(), t.make.room(needed));
        let (place, which) = (t.make.place(2), t.make.place(2));
        Asked { text: t.read(text), place, which, out: t.out(room) }
    }

    fn lent(&self, c: &Copies) -> ((*const u8, tb_size), (*mut u8, tb_size)) {
        ((c.at(self.text), c.len(self.text)), (c.out(self.out), c.len(self.out)))
    }
}

fn read_servers(t: &mut Trial) {
    let asked = Asked::new(t, 128);
    t.call(|c| {
        let (text, out) = asked.lent(c);
        unsafe { raw::tb_read_servers(text.0, text.1, out.0, out.1) }.into()
    });
}

fn server_name(t: &mut Trial) {
    let asked = Asked::new(t, 30);
    t.call(|c| {
        let (text, out) = asked.lent(c);
        unsafe { raw::tb_server_name(text.0, text.1, asked.place, out.0, out.1) }.into()
    });
}

fn server_address(t: &mut Trial) {
    let asked = Asked::new(t, 40);
    let (place, which) = (asked.place, asked.which);
    t.call(|c| {
        let (text, out) = asked.lent(c);
        unsafe { raw::tb_server_address(text.0, text.1, place, which, out.0, out.1) }.into()
    });
}

fn list_source(t: &mut Trial) {
    let asked = Asked::new(t, 60);
    t.call(|c| {
        let (text, out) = asked.lent(c);
        unsafe { raw::tb_list_source(text.0, text.1, asked.place, out.0, out.1) }.into()
    });
}

fn list_reports(t: &mut Trial) {
    let asked = Asked::new(t, 60);
    t.call(|c| {
        let (text, out) = asked.lent(c);
        unsafe { raw::tb_list_reports(text.0, text.1, out.0, out.1) }.into()
    });
}

/// The parts of a list that can be read, or of none.
fn parts(t: &mut Trial) -> Owned {
    let text = t.make.list();
    list_text::read(&text).map(|listed| Owned::of(&listed)).unwrap_or_default()
}

fn write_server(t: &mut Trial) {
    let parts = parts(t);
    let cut = |bytes: &[u8], lengths: &[u32]| {
        let length = lengths.first().map_or(0, |length| *length as usize);
        bytes[..length].to_vec()
    };
    let (name, lines) =
        (cut(&parts.names, &parts.name_lengths), cut(&parts.addresses, &parts.address_lengths));
    // Nine addresses or more, now and then.
    let lines = if t.make.random.once_in(6) { lines.repeat(9) } else { lines };
    let (name, lines) = (t.make.mostly(&name, &lines), t.make.mostly(&lines, &name));
    let (version, key) = (t.make.word(), t.make.array::<32>());
    let room = t.make.room(200 + 2 * name.len() + 3 * lines.len());
    let [name, key, lines] = [&name[..], &key, &lines].map(|bytes| t.read(bytes));
    let out = t.out(room);
    t.call(|c| {
        let (name, name_length, key) = (c.at(name), c.len(name), c.array(key));
        let (lines, lines_length) = (c.at(lines), c.len(lines));
        let (out, out_length) = (c.out(out), c.len(out));
        let told = unsafe {
            raw::tb_write_server(
                name,
                name_length,
                version,
                key,
                lines,
                lines_length,
                out,
                out_length,
            )
        };
        Answer::from(told)
    });
}

/// Numbers as they are, or with one more, one fewer or another.
fn words(t: &mut Trial, mut words: Vec<u32>) -> Id {
    if t.make.random.once_in(24) {
        let any = t.make.word();
        match t.make.random.below(3) {
            0 => words.push(any),
            1 => {
                words.pop();
            }
            _ => words.iter_mut().take(1).for_each(|word| *word = any),
        }
    }
    t.words(Use::Read, &words)
}

fn write_servers(t: &mut Trial) {
    let parts = parts(t);
    let needed = independent::list_writing::list_of(&parts.lent()).map_or(300, |text| text.len());
    let room = if t.make.random.once_in(3) { t.make.room(needed) } else { needed };
    let bytes =
        [parts.keys, parts.names, parts.addresses, parts.sources, parts.reports].map(|real| {
            let damaged = t.make.random.once_in(24);
            let bytes = if damaged { t.make.near(&real, &real) } else { real };
            t.read(bytes)
        });
    let [keys, names, addresses, sources, reports] = bytes;
    let [versions, name_lengths, address_lengths] =
        [parts.versions, parts.name_lengths, parts.address_lengths].map(|one| words(t, one));
    let out = t.out(room);
    t.call(|c| {
        let told = unsafe {
            raw::tb_write_servers(
                c.at(keys),
                c.len(keys),
                c.at(versions).cast(),
                c.len(versions) / 4,
                c.at(names),
                c.len(names),
                c.at(name_lengths).cast(),
                c.len(name_lengths) / 4,
                c.at(addresses),
                c.len(addresses),
                c.at(address_lengths).cast(),
                c.len(address_lengths) / 4,
                c.at(sources),
                c.len(sources),
                c.at(reports),
                c.len(reports),
                c.out(out),
                c.len(out),
            )
        };
        Answer::from(told)
    });
}
