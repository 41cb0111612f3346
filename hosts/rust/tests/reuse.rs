//! Answers that a host kept, asked again by the proved library and by the independent
//! implementation: whether a window may still be used, and whether two answers come from one
//! delegation. Last, that neither when a key may sign nor which it is has a say in what is cut.
//!
//! An answer is asked about as C tells it, by its code, MINT, MAXT and key, once out of the check of
//! a response and once out of a pile of one record.

mod support;

use independent::check::{self, Valid};
use independent::making::{self, Link, Made};
use independent::refusal::Refusal;
use independent::{pile, report};
use support::packets::{number, ResponseFields};
use support::pairs::{Pair, Question, RULES};
use support::Xorshift;
use trawlbeacon::{raw, Checked, Record, Window};

/// What the two questions read of an answer.
#[derive(Clone, Copy, Debug, PartialEq, Eq)]
struct Told {
    code: u32,
    dele: Dele,
}

/// What DELE holds.
#[derive(Clone, Copy, Debug, PartialEq, Eq)]
struct Dele {
    pubk: [u8; 32],
    mint: u64,
    maxt: u64,
}

impl Dele {
    /// Any, with a second before it and one behind it.
    fn random(random: &mut Xorshift) -> Dele {
        let mut times = [number(random), number(random)].map(|time| time.clamp(1, u64::MAX - 1));
        times.sort_unstable();
        Dele { pubk: random.array(), mint: times[0], maxt: times[1] }
    }

    fn of(checked: &Checked) -> Dele {
        Dele { pubk: checked.pubk, mint: checked.window.mint, maxt: checked.window.maxt }
    }

    /// The same but for one of the three, by one bit or by one second, or for the zeros that stand
    /// beside a refusal.
    fn others(self, random: &mut Xorshift) -> [Dele; 6] {
        let Dele { mut pubk, mint, maxt } = self;
        pubk[random.below(32)] ^= 1 << random.below(8);
        [
            Dele { pubk, ..self },
            Dele { pubk: [0; 32], ..self },
            Dele { mint: mint - 1, ..self },
            Dele { mint: mint & (mint - 1), ..self },
            Dele { maxt: maxt + 1, ..self },
            Dele { maxt: maxt | (maxt + 1), ..self },
        ]
    }

    /// Which of the three is another's: PUBK, MINT, MAXT.
    fn differs(&self, other: &Dele) -> [bool; 3] {
        [self.pubk != other.pubk, self.mint != other.mint, self.maxt != other.maxt]
    }
}

/// An answer that was kept, as each side has it, and the fields that it was made of where it is
/// valid.
struct Kept {
    told: Told,
    independent: Result<Valid, Refusal>,
    due: Option<Checked>,
}

/// The answer out of the check, and out of the judge of a pile: what C is told must be the same.
fn keep(question: &Question, due: Option<Checked>) -> Kept {
    let Question { request, response, delegation, signature } = question;
    let record = Record::new(&[0; 32], &[0; 32], request, response).expect("both fit");
    let (pile, answers) = (record.bytes(), [*delegation, *signature].map(u8::from));
    // SAFETY: the library only reads what it is lent.
    let (verdict, judged) = unsafe {
        let (q, p) = ((request.as_ptr(), request.len()), (response.as_ptr(), response.len()));
        (
            raw::tb_check_response(
                q.0,
                raw::size(q.1),
                p.0,
                raw::size(p.1),
                answers[0].into(),
                answers[1].into(),
            ),
            raw::tb_judge(pile.as_ptr(), raw::size(pile.len()), answers.as_ptr(), 2, 0),
        )
    };
    let (mint, maxt) = (verdict.mint, verdict.maxt);
    let told = Told { code: verdict.code, dele: Dele { pubk: verdict.pubk, mint, maxt } };
    let (mint, maxt) = (judged.mint, judged.maxt);
    let dele = Dele { pubk: judged.pubk, mint, maxt };
    assert_eq!(told, Told { code: judged.code, dele });
    let independent = check::check(request, response, *delegation, *signature);
    Kept { told, independent, due }
}

/// An answer to a pair that is valid two times of three, with one of these delegations.
fn any(random: &mut Xorshift, delegations: &[Dele]) -> Kept {
    let mut pair = Pair::random(random, 0);
    let Dele { pubk, mint, maxt } = random.pick(delegations);
    let midp = pair.response.midp.clamp(mint, maxt);
    pair.response = ResponseFields { pubk, mint, maxt, midp, ..pair.response };
    let valid = !random.once_in(3);
    if !valid {
        let rule = random.pick(&RULES);
        pair.break_rule(random, rule);
    }
    keep(&pair.question(), valid.then(|| pair.checked()))
}

/// Whether the window may be used, as our two forms and the independent one say it.
fn usable(kept: &Kept, time: u64) -> bool {
    // SAFETY: no pointer is passed.
    let ours = unsafe { raw::tb_may_use_fields(kept.told.code, kept.told.dele.maxt, time) };
    let due = kept.due.map_or(false, |checked| time <= checked.window.maxt);
    assert_eq!(ours, due, "{:?} at {time}", kept.told);
    assert_eq!(ours, check::usable(&kept.independent, time), "{:?} at {time}", kept.told);
    if let Some(Checked { window, .. }) = kept.due {
        assert_eq!(ours, trawlbeacon::may_use(&window, time));
    }
    ours
}

/// What C is asked of two answers.
fn asked(first: &Told, second: &Told) -> bool {
    let (a, b) = (first.dele, second.dele);
    // SAFETY: the library only reads both keys.
    unsafe {
        raw::tb_same_delegation_fields(
            first.code,
            &a.pubk,
            a.mint,
            a.maxt,
            second.code,
            &b.pubk,
            b.mint,
            b.maxt,
        )
    }
}

fn one_delegation(first: &Kept, second: &Kept) -> bool {
    let ours = asked(&first.told, &second.told);
    let due = first.due.zip(second.due);
    let how = || format!("{:?} and {:?}", first.told, second.told);
    assert_eq!(ours, due.map_or(false, |(a, b)| Dele::of(&a) == Dele::of(&b)), "{}", how());
    let theirs = check::one_delegation(&first.independent, &second.independent);
    assert_eq!(ours, theirs, "{}", how());
    if let Some((first, second)) = due {
        assert_eq!(ours, trawlbeacon::same_delegation(&first, &second));
    }
    ours
}

#[test]
fn a_window_may_be_used_up_to_maxt() {
    let mut random = Xorshift::new(0x5eed_0901);
    let (mut asked, mut yes, mut refused) = (0, 0, 0);
    for _ in 0..5_000 {
        let dele = Dele::random(&mut random);
        let kept = any(&mut random, &[dele]);
        refused += usize::from(kept.due.is_none());
        let Window { midp, low, high, mint, maxt, .. } = kept
            .due
            .map_or(Window { midp: 0, radi: 0, low: 0, high: 0, mint: 0, maxt: 0 }, |it| it.window);
        let ends = [0, u64::MAX, midp, low, high, mint, mint.saturating_sub(1), maxt];
        let beside = [maxt.saturating_sub(1), maxt.saturating_add(1), number(&mut random)];
        for time in ends.into_iter().chain(beside) {
            yes += usize::from(usable(&kept, time));
            asked += 1;
        }
    }
    println!(
        "may a window be used: {asked} questions, {yes} times yes; {refused} of 5000 answers were \
         refused"
    );
    assert!(yes >= 10_000 && asked - yes >= 10_000 && refused >= 1_000);
}

/// Delegations that differ in one bit of one of the three, the zeros that stand beside a refusal,
/// and others.
#[test]
fn two_answers_come_from_one_delegation() {
    let mut random = Xorshift::new(0x5eed_0902);
    let (mut asked, mut yes, mut alone) = (0, 0, [0; 3]);
    for _ in 0..300 {
        let dele = Dele::random(&mut random);
        let other = Dele::random(&mut random);
        let delegations = [&[dele, dele, dele, other], &dele.others(&mut random)[..]].concat();
        let kept: Vec<Kept> = (0..12).map(|_| any(&mut random, &delegations)).collect();
        for (first, second) in kept.iter().flat_map(|one| kept.iter().map(move |two| (one, two))) {
            yes += usize::from(one_delegation(first, second));
            asked += 1;
            let Some((first, second)) = first.due.zip(second.due) else { continue };
            match Dele::of(&first).differs(&Dele::of(&second)) {
                [true, false, false] => alone[0] += 1,
                [false, true, false] => alone[1] += 1,
                [false, false, true] => alone[2] += 1,
                _ => (),
            }
        }
    }
    println!("do two answers come from one delegation: {asked} pairs, {yes} times yes");
    println!("valid pairs that differ in PUBK, MINT or MAXT alone: {alone:?}");
    assert!(yes >= 3_000 && asked - yes >= 3_000);
    assert!(alone.iter().all(|pairs| *pairs >= 1_000));
}

/// The codes of a refusal are no answers of a valid one, with whatever key and MAXT beside them.
#[test]
fn a_refused_answer_is_never_used() {
    for code in (1..=u32::from(u8::MAX)).chain([256, 1 << 16, 1 << 24, u32::MAX]) {
        let dele = Dele { pubk: [7; 32], mint: 0, maxt: u64::MAX };
        let [valid, refused] = [0, code].map(|code| Told { code, dele });
        // SAFETY: no pointer is passed.
        assert!(!unsafe { raw::tb_may_use_fields(code, u64::MAX, 0) }, "code {code}");
        for (first, second) in [(refused, valid), (valid, refused), (refused, refused)] {
            assert!(!asked(&first, &second), "code {code}");
        }
        assert!(asked(&valid, &valid));
    }
}

/// The places of the run that ours cuts and of the pair that it names, where there are such, once
/// the independent side said the same.
fn convicts(Made { pile, answers }: &Made) -> [Option<(usize, usize)>; 2] {
    let run = trawlbeacon::cut(pile, answers).ok().map(|cut| (cut.run.first, cut.run.last));
    let pair = trawlbeacon::check_report(pile, answers).ok().map(|it| (it.first, it.second));
    assert_eq!(run, report::run(pile, answers).ok());
    assert_eq!(pair, report::check(pile, answers).ok());
    [run, pair]
}

/// Pairs of piles with the same times, of which the one has other keys, MINT and MAXT.
#[test]
fn delegations_have_no_say_in_what_is_cut() {
    let mut random = Xorshift::new(0x5eed_0903);
    let (mut runs, mut none) = (0, 0);
    for _ in 0..2_000 {
        let count = 2 + random.below(5);
        let plain: Vec<Link> = (0..count)
            .map(|i| Link::new(i as u8, 1_000 + random.next() % 60, 1 + random.next() as u32 % 20))
            .collect();
        let other: Vec<Link> = plain
            .iter()
            .map(|link| Link {
                pubk: random.array(),
                mint: link.midp - random.next() % 1_000,
                maxt: link.midp + random.next() % 1_000,
                ..link.clone()
            })
            .collect();
        let (mut plain, mut other) = (making::chain(&plain), making::chain(&other));
        if random.once_in(3) {
            let no = random.below(plain.answers.len());
            plain.answers[no] = 0;
            other.answers[no] = 0;
        }
        let judged = pile::judge_all(&other.pile, &other.answers).expect("it is a pile");
        let keys: Vec<_> = judged.iter().flatten().map(|valid| valid.pubk).collect();
        assert!(keys.windows(2).all(|pair| pair[0] != pair[1]));
        assert_eq!(convicts(&plain), convicts(&other));
        match convicts(&plain)[0] {
            Some(_) => runs += 1,
            None => none += 1,
        }
    }
    println!(
        "2000 pairs of piles that differ in their delegations: {runs} runs, {none} times none"
    );
    assert!(runs >= 300 && none >= 300);
}
