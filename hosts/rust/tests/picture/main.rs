//! The picture of a pile, by what stands in it: each window at its place on the axis, each refusal
//! in its words, links, the run. And that no bytes do harm, and every SVG is well-formed XML.

#[path = "../support/mod.rs"]
mod support;
mod xml;

use independent::appendix;
use independent::making::{self, Link, Made};
use support::piles::{self, Wish, BROKEN};
use support::signing::Servers;
use support::{vectors, Xorshift};
use trawlbeacon::picture::Picture;
use trawlbeacon::{Refusal, MOST_RECORDS, RECORD_LENGTH};
use xml::Element;

fn picture(Made { pile, answers }: &Made) -> Picture {
    Picture::with_answers(pile, answers).expect("it is a pile")
}

/// The elements of a picture.
fn drawn(picture: &Picture) -> Vec<Element> {
    xml::elements(&picture.svg()).unwrap_or_else(|how| panic!("{how}"))
}

/// The bars of a picture, by where they start and how long they are, in hundredths of a pixel. The
/// squares of the legend are as high as they are wide.
fn bars(elements: &[Element]) -> Vec<(u64, u64)> {
    let of_a_server =
        |element: &&Element| element.name == "rect" && element.attribute("class").starts_with('s');
    let bars = elements.iter().filter(of_a_server).filter(|bar| bar.length("height") == 1_400);
    bars.map(|bar| (bar.length("x"), bar.length("width"))).collect()
}

fn texts(elements: &[Element]) -> Vec<&str> {
    let texts = elements.iter().filter(|element| element.name == "text");
    texts.map(|element| element.text.as_str()).collect()
}

fn count(elements: &[Element], class: &str) -> usize {
    elements.iter().filter(|element| element.class(class)).count()
}

/// Document 01's fifth example.
fn example() -> Made {
    making::pile_of(&[(1000, 10), (1500, 10), (1495, 1), (1400, 10)])
}

#[test]
fn each_window_is_a_bar_at_its_place() {
    let elements = drawn(&picture(&example()));
    // The axis starts at 160 pixels and is 700 long, here for 520 seconds.
    let at = |second: u64| 16_000 + (second - 990) * 70_000 / 520;
    let windows = [(990, 1010), (1490, 1510), (1494, 1496), (1390, 1410)];
    let due: Vec<(u64, u64)> =
        windows.iter().map(|(low, high)| (at(*low), at(*high) - at(*low))).collect();
    // The third has two seconds, which are less than three pixels: it is drawn as three.
    assert_eq!((due[2].1, bars(&elements)[2]), (269, (due[2].0, 300)));
    for place in [0, 1, 3] {
        assert_eq!(bars(&elements)[place], due[place], "record {place}");
    }
    let texts = texts(&elements);
    assert!(texts.contains(&"Too short for this scale, and drawn longer: the windows of 2."));
    assert!(texts.contains(&"1970-01-01 00:24:54 to 00:24:56 (1494 to 1496)"));
    assert!(texts.contains(&"B 54545454"));
    // Words stand below their bar, or so far left that they end at the margin.
    for (told, (start, _)) in words_on_windows(&elements).iter().zip(due) {
        let last = 94_200 - 670 * told.text.len() as u64;
        assert_eq!(told.length("x"), start.min(last), "{told:?}");
    }
}

/// The words on each window, which a rim keeps clear of the lines behind them.
fn words_on_windows(elements: &[Element]) -> Vec<&Element> {
    let classes = ["faint mono told", "faint mono banded"];
    elements.iter().filter(|element| classes.iter().any(|class| element.class(class))).collect()
}

#[test]
fn the_run_and_its_pair_are_marked() {
    let elements = drawn(&picture(&example()));
    let band = elements.iter().find(|element| element.class("band")).expect("a run convicts");
    assert_eq!((band.length("y"), band.length("height")), (6_600 + 2 * 4_800, 2 * 4_800));
    assert!(texts(&elements).contains(&"run 2 to 3"));
    // From 1410, the last second by record 3, to 1494, the first by record 2.
    let apart = elements.iter().find(|element| element.class("apart")).expect("a run convicts");
    let at = |second: u64| 16_000 + (second - 990) * 70_000 / 520;
    assert_eq!((apart.length("x1"), apart.length("x2")), (at(1410), at(1494)));
    // It is said in the picture how far that is, and above it, what follows.
    let (texts, title) = (texts(&elements), &elements[1].text);
    assert!(texts.contains(&"1 min apart"));
    assert!(texts.contains(&"Records 2 and 3 contradict each other. Dates and times are UTC."));
    assert!(title.ends_with("signatures. Records 2 and 3 contradict each other."), "{title}");
    // Words, but no bars, are above the lines that mark the pair.
    let place = |class: &str| elements.iter().position(|element| element.class(class));
    assert!(place("s3") < place("apart") && place("apart") < place("faint mono banded"));
    let told = picture(&example()).text();
    assert!(told.contains("\n> 2 C 57575757 ") && told.contains("\n> 3 D 56565656 "));
    assert!(told.contains("\n  0 A 55555555 ") && told.contains("\n  1 B 54545454 "));
    // Between the ends of a run of three stands a record that is neither.
    let told = picture(&making::pile_of(&[(100, 1), (95, 20), (80, 1)])).text();
    assert!(told.contains("\n> 0 A ") && told.contains("\n| 1 B ") && told.contains("\n> 2 C "));
}

const TEXT: &str = "\
4 records, judged by the answers about their signatures; dates are UTC

  0 A 55555555  ===
    first       1970-01-01 00:16:30 to 00:16:50 (990 to 1010)
  1 B 54545454                                                             ====
    linked      1970-01-01 00:24:50 to 00:25:10 (1490 to 1510)
> 2 C 57575757                                                              =
    linked      1970-01-01 00:24:54 to 00:24:56 (1494 to 1496)
> 3 D 56565656                                                 ====
    linked      1970-01-01 00:23:10 to 00:23:30 (1390 to 1410)
                ----------|--------------|-------------|-------------|---------
                          00:18:00       00:20:00      00:22:00      00:24:00
                          1970-01-01     1970-01-01    1970-01-01    1970-01-01
";

#[test]
fn the_text_of_the_example() {
    let text = picture(&example()).text();
    assert!(text.starts_with(TEXT), "{text}");
    let end = "The two are 84 seconds (about 1 minute) apart, and contradict each other.\n\
               Too short for this scale, and drawn longer: the windows of 2.\n";
    assert!(text.ends_with(end), "{text}");
    let server = format!("\nA {} (1 record)\n", "55".repeat(32));
    assert!(text.contains(&server), "{text}");
}

#[test]
fn a_refused_record_has_its_code_and_words_and_no_bar() {
    let mut made = example();
    made.answers[7] = 0;
    made.pile[RECORD_LENGTH + 72] = 1;
    made.pile[2 * RECORD_LENGTH + 2096 + 12] = 0;
    let elements = drawn(&picture(&made));
    assert_eq!((bars(&elements).len(), count(&elements, "hollow")), (1, 3));
    let due = [
        "refused with code 13: the response's signature does not verify",
        "refused with code 16: a record's lengths are above 2,000, or a byte that must be zero is \
         not",
        "refused with code 4: a message's length, number of tags, header or offset is wrong, at \
         byte 12",
        "No run of records convicts: nothing here proves a lie.",
    ];
    let (texts, told) = (texts(&elements), picture(&made).text());
    for due in due {
        assert!(texts.contains(&due), "{due}");
        // In the terminal it is broken into lines.
        let words: Vec<&str> = told.split_whitespace().collect();
        assert!(words.join(" ").contains(due), "{due}");
    }
    assert_eq!((count(&elements, "band"), count(&elements, "apart")), (0, 0));
}

#[test]
fn a_link_that_fails_is_shown() {
    let mut made = example();
    assert_eq!(count(&drawn(&picture(&made)), "link"), 3);
    made.pile[3 * RECORD_LENGTH + 32] ^= 1;
    let elements = drawn(&picture(&made));
    assert_eq!((count(&elements, "link"), count(&elements, "unlinked")), (2, 1));
    let ties = ["first", "linked", "linked", "not linked"];
    let told: Vec<&str> = texts(&elements).into_iter().filter(|text| ties.contains(text)).collect();
    assert_eq!(told, ties);
    assert_eq!(picture(&made).text().matches("\n    not linked  ").count(), 1);
}

#[test]
fn the_report_of_the_draft() {
    let text = vectors("malfeasance-report.json");
    let read = Picture::of_text(text.as_bytes()).expect("it is a report");
    assert_eq!(Ok(&read), Picture::of_pile(&appendix::pile().pile).as_ref());
    let elements = drawn(&read);
    // The windows of six seconds are a day apart: all of that day but its ends is left out.
    assert_eq!(bars(&elements), [(53_200, 32_800), (16_000, 32_800), (16_000, 32_800)]);
    let texts = texts(&elements);
    for due in ["24 h", "24 h apart", "run 0 to 1", "A 1670f22d", "18:26:10", "2026-03-15"] {
        assert!(texts.contains(&due), "{due}");
    }
    // The README shows it.
    let kept = concat!(env!("CARGO_MANIFEST_DIR"), "/../../docs/draft-report.svg");
    assert!(std::fs::read_to_string(kept).expect("it is kept") == read.svg());
    // And one that nobody keeps the pile of. It has the same style, but for a server less.
    let other = concat!(env!("CARGO_MANIFEST_DIR"), "/../../docs/demo.svg");
    let other = xml::elements(&std::fs::read_to_string(other).expect("it is kept"));
    let style = |all: &[Element]| {
        let style = all.iter().find(|one| one.name == "style").expect("it has one");
        let lines = style.text.lines().filter(|line| !line.starts_with(".s2 "));
        lines.map(str::to_string).collect::<Vec<String>>()
    };
    assert_eq!(style(&other.expect("it is well-formed")), style(&elements));
    assert_eq!(Picture::of_text(&text.as_bytes()[1..]), Err(Refusal::ReportText));
    assert_eq!(Picture::of_text(br#"{"responses": []}"#), Err(Refusal::Entries));
}

/// Who has a list, or tells a story, has names for the servers.
#[test]
fn servers_have_names() {
    let mut picture = picture(&example());
    picture.name_servers(|key| match key[0] {
        0x55 => Some("alder".to_string()),
        0x54 => Some("a name as long as nobody has one, in any list".to_string()),
        0x57 => Some("<b\u{1b}[1m>".to_string()),
        _ => None,
    });
    hold(&picture, 4);
    let (elements, told) = (drawn(&picture), picture.text());
    let texts = texts(&elements);
    for due in ["A alder", "B a name as lon", "C <b?[1m>", "D 56565656"] {
        assert!(texts.contains(&due), "{due}: {texts:?}");
    }
    let whole = format!("B {} a name as long as nobody has one, in any list", "54".repeat(32));
    assert!(texts.contains(&&whole[..]), "{texts:?}");
    let sentence = "Record 2 (<b?[1m>) says that it was 1970-01-01 00:24:54 or later.";
    let stranger = "In no list, so that anybody may have made it: the key D.";
    assert!(texts.contains(&sentence) && texts.contains(&stranger), "{texts:?}");
    assert!(told.contains(sentence) && told.contains(stranger), "{told}");
    for due in ["\n  0 A alder         =", "\n  1 B a name as lo ", "\n> 2 C <b?[1m>"] {
        assert!(told.contains(due), "{told}");
    }
    assert!(told.contains(&format!("\nA {} alder\n", "55".repeat(32))), "{told}");
    assert!(told.contains(&format!("\nD {} in no list\n", "56".repeat(32))), "{told}");
    assert!(!told.contains('\u{1b}'));
}

/// A server that is asked twice has one colour and one letter.
#[test]
fn a_server_is_one_by_its_whole_key() {
    let links: Vec<Link> = (0..6)
        .map(|seed| {
            let mut key = [0x55; 32];
            // The keys differ in their last byte alone.
            key[31] = seed % 3;
            Link { key, ..Link::new(seed, 1000, 5) }
        })
        .collect();
    let elements = drawn(&picture(&making::chain(&links)));
    for server in 0..3 {
        // Two circles, two bars, and a square.
        assert_eq!(count(&elements, &format!("s{server}")), 5);
    }
    let texts = texts(&elements);
    for (key, letter) in ["A", "B", "C"].into_iter().enumerate() {
        assert_eq!(texts.iter().filter(|text| **text == format!("{letter} 55555555")).count(), 2);
        let whole = format!("{letter} {}{key:02x} (2 records)", "55".repeat(31));
        assert!(texts.contains(&whole.as_str()), "{whole}");
    }
}

#[test]
fn what_is_no_pile_is_refused_as_the_library_refuses_it() {
    let Made { pile, answers } = example();
    assert_eq!(Picture::of_pile(&[]), Err(Refusal::Pile));
    assert_eq!(Picture::of_pile(&pile[1..]), Err(Refusal::Pile));
    assert_eq!(Picture::of_pile(&[0; 17 * RECORD_LENGTH]), Err(Refusal::Pile));
    assert_eq!(Picture::with_answers(&pile, &answers[1..]), Err(Refusal::Pile));
    assert_eq!(Picture::with_answers(&pile, &[2; 8]), Err(Refusal::Pile));
    assert!(Picture::of_pile(&pile).is_ok());
}

/// A day is named below the axis where it begins, and not under each second of it.
#[test]
fn a_day_is_named_once() {
    let days = |made: &Made| {
        let elements = drawn(&picture(made));
        let named = elements.iter().filter(|element| element.class("faint mono"));
        let is_day = |text: &&Element| text.text.len() == 10 && text.text.contains('-');
        named.filter(is_day).map(|text| text.text.clone()).collect::<Vec<String>>()
    };
    assert_eq!(days(&example()), ["1970-01-01"]);
    assert_eq!(days(&making::pile_of(&[(86_400, 30), (86_360, 30)])), ["1970-01-01", "1970-01-02"]);
}

/// How wide a text may be in the fonts that it is drawn in, where these are wide ones.
fn width(text: &Element) -> u64 {
    let class = text.attribute("class");
    let letter = match class {
        _ if class.contains("mono") => 665,
        _ if class.contains("heading") => 1_150,
        _ if class.contains("small") => 630,
        _ => 760,
    };
    letter * text.text.chars().count() as u64
}

/// How far a text reaches to both sides of its place.
fn reach(text: &Element) -> (u64, u64) {
    let width = width(text);
    match text.attribute("text-anchor") {
        "start" => (0, width),
        "middle" => (width / 2, width / 2),
        _ => (width, 0),
    }
}

/// No text runs out of the picture, and no dashed line of the pair runs through one.
fn hold_texts(elements: &[Element]) {
    for text in elements.iter().filter(|element| element.name == "text") {
        let (x, (before, after)) = (text.length("x"), reach(text));
        assert!(before <= x && x + after <= 96_000, "{text:?}");
        for line in elements.iter().filter(|element| element.class("guide")) {
            let (across, top, bottom) = (line.length("x1"), line.length("y1"), line.length("y2"));
            let beside = across < x - before || x + after < across;
            // Letters stand on their place, and some reach below it.
            let over = bottom < text.length("y") - 900 || text.length("y") + 300 < top;
            assert!(beside || over, "{line:?} runs through {text:?}");
        }
    }
}

/// What every picture must be, whatever it is of.
fn hold(picture: &Picture, records: usize) {
    let elements = drawn(picture);
    let circles = elements.iter().filter(|element| element.name == "circle").count();
    assert_eq!(circles, records);
    for (start, width) in bars(&elements) {
        assert!(start >= 16_000 && width >= 300 && start + width <= 86_000, "{start} {width}");
    }
    hold_texts(&elements);
    for bad in ["script", "href", "image", "foreignObject", "use"] {
        assert!(elements.iter().all(|element| element.name != bad));
    }
    let text = picture.text();
    let long = text.lines().find(|line| line.chars().count() > 80);
    assert_eq!(long, None);
}

/// Windows anywhere from 0 to 2^64 - 1, close together, far apart, and at the ends.
#[test]
fn any_windows_are_drawn() {
    let mut random = Xorshift::new(0x5eed_0701);
    for _ in 0..2_000 {
        let near = random.next() >> random.below(64);
        let windows: Vec<(u64, u32)> = (0..1 + random.below(MOST_RECORDS))
            .map(|_| {
                let any = random.next() >> random.below(64);
                let close = near.saturating_add(any % 100);
                let midp = random.pick(&[0, 1, u64::MAX, u64::MAX - 1, any, close, close]);
                (midp, 1 + (random.next() as u32 >> 1 >> random.below(31)))
            })
            .collect();
        hold(&picture(&making::pile_of(&windows)), windows.len());
    }
    println!("pictures: 2,000 piles of any windows");
}

#[test]
fn any_bytes_do_no_harm() {
    let mut random = Xorshift::new(0x5eed_0702);
    let servers = Servers::new(&mut random, 3);
    let (mut pictures, mut refused) = (0, 0);
    for round in 0..400 {
        let records = 1 + random.below(6);
        let mut wishes = vec![Wish::good((1_000, 9)); records];
        for wish in &mut wishes {
            wish.midp += random.below(60) as u64;
            if random.once_in(3) {
                wish.tie = random.pick(&BROKEN);
            }
            if random.once_in(4) {
                wish.spoil(&mut random);
            }
        }
        let (made, _) = piles::build_signed(&mut random, &wishes, true, &servers);
        let mut bytes = match round % 4 {
            0 => random.bytes(records * RECORD_LENGTH),
            _ => made.pile,
        };
        for _ in 0..random.below(3) {
            let at = random.below(bytes.len());
            bytes[at] ^= 1 << random.below(8);
        }
        bytes.truncate(bytes.len() - usize::from(random.once_in(8)));
        match Picture::of_pile(&bytes) {
            Ok(picture) => {
                hold(&picture, records);
                pictures += 1;
            }
            Err(refusal) => {
                assert_eq!((refusal, bytes.len() % RECORD_LENGTH), (Refusal::Pile, 4_095));
                refused += 1;
            }
        }
        assert_eq!(Picture::of_text(&bytes), Err(Refusal::ReportText));
    }
    println!("pictures: {pictures} piles of any bytes, and {refused} that are none");
    assert!(pictures > 300 && refused > 20);
}
