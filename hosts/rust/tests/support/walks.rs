//! Measuring walks: how both sides are called, what servers tell, and responses that are refused.

use super::damage;
use super::packets::{number, ResponseFields};
use super::pairs::NOES;
use super::Xorshift;
use independent::check;
use independent::hash::{self, Hash};
use independent::pile::RECORD;
use independent::place;
use independent::refusal::Refusal;
use independent::tree;
use independent::walk::{self, Arrived, Asked, Heard, Stand, Walk};
use trawlbeacon::raw::{self, tb_asked, tb_took, tb_walk};
use trawlbeacon::{Outcome, PacketRefusal, Pair, Taken};

/// A window, by its MIDP and RADI.
pub type Window = (u64, u32);

/// A state before any start, which a start writes over.
pub fn unstarted(random: &mut Xorshift) -> tb_walk {
    let mut state = tb_walk {
        keys: [0; 256],
        count: random.next(),
        step: random.next(),
        nonce: random.array(),
        rand: random.array(),
        last: random.next(),
        most: random.next(),
    };
    state.keys.copy_from_slice(&random.bytes(256));
    state
}

pub fn take(state: &mut tb_walk, heard: &Heard, pile: &mut [u8]) -> tb_took {
    // Only 1 is yes, so that each of these must do for no.
    let no = NOES[(heard.response.len() / 4 + usize::from(heard.rand[0])) % NOES.len()];
    let answers = [heard.delegation, heard.signature].map(|yes| if yes { 1 } else { no });
    state.take(answers, [heard.sent, heard.received], &heard.rand, heard.response, pile)
}

pub fn take_signed(state: &mut tb_walk, arrived: &Arrived, pile: &mut [u8]) -> tb_took {
    let when = [arrived.sent, arrived.received];
    state.take_signed(when, &arrived.rand, arrived.response, pile)
}

/// The independent side's state, as ours lays it out.
pub fn laid(walk: &Walk) -> tb_walk {
    let mut keys = [0; 256];
    keys[..32 * walk.servers.len()].copy_from_slice(&walk.servers.concat());
    tb_walk {
        keys,
        count: walk.servers.len() as u64,
        step: walk.accepted,
        nonce: walk.nonce,
        rand: walk.rand,
        last: walk.last,
        most: walk.longest,
    }
}

/// A state as the independent side has it. More servers than there is room for are as bad as one
/// too many.
pub fn read_back(state: &tb_walk) -> Walk {
    let count = state.count.min(9) as usize;
    let key = |at: usize| match state.keys.get(32 * at..32 * at + 32) {
        Some(key) => key.try_into().expect("32 bytes"),
        None => [0; 32],
    };
    Walk {
        servers: (0..count).map(key).collect(),
        accepted: state.step,
        nonce: state.nonce,
        rand: state.rand,
        last: state.last,
        longest: state.most,
    }
}

/// What ours must answer where the independent side answered that.
pub fn asked(answer: Result<Asked, Refusal>) -> tb_asked {
    match answer {
        Ok(Asked { server, nonce }) => tb_asked { code: 0, server: server as u64, nonce },
        Err(refusal) => tb_asked { code: refusal.code(), server: 0, nonce: [0; 32] },
    }
}

/// What stands beside the code of a refusal, but for its place.
pub const NOTHING: tb_took = tb_took {
    code: 0,
    outcome: raw::TB_NOTHING_SAID,
    at: 0,
    first: 0,
    second: 0,
    midp: 0,
    low: 0,
    high: 0,
    mint: 0,
    maxt: 0,
    radi: 0,
};

/// What ours must answer to an accepted response where the walk stands so.
fn standing(stand: Stand) -> tb_took {
    let outcome = match stand {
        Stand::GoesOn => raw::TB_GOES_ON,
        Stand::Consistent => raw::TB_CONSISTENT,
        Stand::Malfeasance(..) => raw::TB_MALFEASANCE,
        Stand::Altered => raw::TB_PILE_ALTERED,
    };
    let (first, second) = match stand {
        Stand::Malfeasance(first, second) => (first as u64, second as u64),
        _ => (0, 0),
    };
    tb_took { outcome, first, second, ..NOTHING }
}

/// Where this response, the one of this step, is taken in a walk whose servers tell these windows.
pub fn due(windows: &[Window], step: usize, response: &ResponseFields) -> tb_took {
    let ended = contradiction(windows)
        .map_or(Stand::Consistent, |(first, second)| Stand::Malfeasance(first, second));
    let stand = if step + 1 < windows.len() { Stand::GoesOn } else { ended };
    let &ResponseFields { midp, radi, mint, maxt, .. } = response;
    let [low, high] = [midp.saturating_sub(radi.into()), midp.saturating_add(radi.into())];
    tb_took { midp, radi, low, high, mint, maxt, ..standing(stand) }
}

/// Where the independent side answered that to a response.
pub fn took(answer: Result<walk::Taken, Refusal>, response: &[u8]) -> tb_took {
    match answer {
        Ok(walk::Taken { stand, window: check::Window { midp, radi, low, high, mint, maxt } }) => {
            tb_took { midp, radi, low, high, mint, maxt, ..standing(stand) }
        }
        Err(refusal) => {
            let code = refusal.code();
            let at = (4..=7).contains(&code).then(|| place::in_response(response)).flatten();
            tb_took { code, at: at.map_or(0, |place| place.at as u64), ..NOTHING }
        }
    }
}

/// What the safe walk said, as the library tells it.
pub fn safe(said: Result<Taken, PacketRefusal>) -> tb_took {
    let Taken { outcome, window } = match said {
        Ok(taken) => taken,
        Err(why) => {
            return tb_took { code: why.code(), at: why.at.unwrap_or(0) as u64, ..NOTHING };
        }
    };
    let stand = match outcome {
        Outcome::GoesOn => Stand::GoesOn,
        Outcome::Consistent => Stand::Consistent,
        Outcome::Malfeasance(Pair { first, second }) => Stand::Malfeasance(first, second),
        Outcome::PileAltered => Stand::Altered,
    };
    let trawlbeacon::Window { midp, radi, low, high, mint, maxt } = window;
    tb_took { midp, radi, low, high, mint, maxt, ..standing(stand) }
}

/// A valid response to this request, short but now and then.
pub fn answer(
    random: &mut Xorshift,
    request: &[u8],
    nonce: &Hash,
    (midp, radi): Window,
) -> ResponseFields {
    let depth = if random.once_in(8) { 1 + random.below(3) } else { 0 };
    let path: Vec<Hash> = (0..depth).map(|_| random.array()).collect();
    let indx = random.below(1 << depth) as u32;
    let (before, after) = (number(random), number(random));
    ResponseFields {
        sig: random.bytes(64),
        nonc: *nonce,
        type_number: 1,
        root: tree::root_of(&hash::leaf(request), indx, &path),
        path,
        indx,
        version: 1,
        radi,
        midp,
        versions: vec![1],
        cert_sig: random.bytes(64),
        pubk: random.array(),
        mint: midp.saturating_sub(before),
        maxt: midp.saturating_add(after),
        others: Default::default(),
    }
}

/// A response with what is said of its signatures, and the code that it is refused with, or 0.
pub struct Reply {
    pub packet: Vec<u8>,
    pub delegation: bool,
    pub signature: bool,
    pub code: u32,
}

/// What can be wrong with a response, in the order of the codes: its shape, which is 1 to 8, and
/// then what these codes are for.
pub const SHAPE: u32 = 8;
pub const FAULTS: [u32; 6] = [SHAPE, 9, 10, 11, 12, 13];

/// Puts the faults of 9, 10 and 11 among these into what a response says.
pub fn wrong(random: &mut Xorshift, response: &mut ResponseFields, faults: &[u32]) {
    for fault in faults {
        match fault {
            9 => response.nonc = another(random, response.nonc),
            10 => wrong_path(random, response),
            11 => wrong_time(random, response),
            _ => (),
        }
    }
}

/// The packet of a response with these faults, of which the first counts, and the code that is due.
pub fn packed(random: &mut Xorshift, response: &ResponseFields, faults: &[u32]) -> (Vec<u8>, u32) {
    let first = faults.first().copied().unwrap_or(0);
    if first != SHAPE {
        return (response.packet(), first);
    }
    loop {
        let damaged = damage::bad_response(random, response);
        let code = damage::first_code(&damaged.done);
        if code != 0 {
            return (damaged.packet, code);
        }
    }
}

/// A valid response, spoilt by these faults, of which the first counts.
pub fn spoilt(random: &mut Xorshift, mut right: ResponseFields, faults: &[u32]) -> Reply {
    wrong(random, &mut right, faults);
    let [delegation, signature] = [!faults.contains(&12), !faults.contains(&13)];
    let (packet, code) = packed(random, &right, faults);
    Reply { packet, delegation, signature, code }
}

/// Another hash, by one bit or by all.
fn another(random: &mut Xorshift, mut hash: Hash) -> Hash {
    if random.once_in(4) {
        return random.array();
    }
    hash[random.below(32)] ^= 1 << random.below(8);
    hash
}

fn wrong_path(random: &mut Xorshift, response: &mut ResponseFields) {
    let depth = response.path.len();
    match random.below(4) {
        0 => response.indx |= 1 << (depth + random.below(32 - depth)),
        1 => response.path.push(random.array()),
        2 if depth > 0 => response.indx ^= 1 << random.below(depth),
        _ => response.root = another(random, response.root),
    }
}

/// A delegation that does not begin yet, or is over, by one second or by many.
fn wrong_time(random: &mut Xorshift, response: &mut ResponseFields) {
    let far = if random.once_in(2) { 0 } else { number(random) };
    let midp = response.midp;
    if midp < u64::MAX && (midp == 0 || random.once_in(2)) {
        response.mint = (midp + 1).saturating_add(far);
    } else {
        response.maxt = (midp - 1).saturating_sub(far);
    }
}

/// The pair of windows that contradict each other and are the closest together, and of those as
/// close the first: by the draft's words, in numbers that cannot wrap.
pub fn contradiction(windows: &[Window]) -> Option<(usize, usize)> {
    let low = |(midp, radi): Window| i128::from(midp) - i128::from(radi);
    let high = |(midp, radi): Window| i128::from(midp) + i128::from(radi);
    let count = windows.len();
    let mut pairs = (1..count).flat_map(|apart| (apart..count).map(move |j| (j - apart, j)));
    pairs.find(|(i, j)| low(windows[*i]) > high(windows[*j]))
}

/// What the servers of a walk tell, and at which steps a server lies.
pub struct Story {
    pub windows: Vec<Window>,
    pub lies: Vec<usize>,
}

const MINUTE: u64 = 60;
const DAY: u64 = 86_400;
const YEAR: u64 = 31_557_600;

/// A story of so many steps. Honest servers tell windows that the true time is in, and it never
/// goes back, so that no two of theirs contradict each other.
pub fn story(random: &mut Xorshift, steps: usize) -> Story {
    let far = random.below(200) as u64;
    let mut now = random.pick(&[1_700_000_000 + far, 1_700_000_000 + far, far, u64::MAX - far]);
    let mut windows = Vec::new();
    for _ in 0..steps {
        now = now.saturating_add(random.below(3) as u64);
        windows.push(honest(random, now));
    }
    let count = random.pick(&[0, 0, 0, 1, 1, 1, 1, 2, 3]);
    let mut lies: Vec<usize> = (0..count).map(|_| random.below(steps)).collect();
    lies.sort_unstable();
    lies.dedup();
    for place in &lies {
        windows[*place] = lie(random, &windows, *place);
    }
    Story { windows, lies }
}

fn honest(random: &mut Xorshift, now: u64) -> Window {
    let radi = 1 + random.below(10) as u32;
    let off = random.below(radi as usize + 1) as u64;
    (if random.once_in(2) { now.saturating_add(off) } else { now.saturating_sub(off) }, radi)
}

/// A window that is wrong by seconds to years, or that just touches an earlier one, or just does
/// not.
fn lie(random: &mut Xorshift, windows: &[Window], place: usize) -> Window {
    let (midp, radi) = windows[place];
    if place > 0 && random.once_in(3) {
        let (midp, wide) = windows[random.below(place)];
        let low = midp.saturating_sub(wide.into());
        let beyond = u64::from(radi) + random.below(2) as u64;
        return (low.saturating_sub(beyond), radi);
    }
    let count = 1 + random.below(50) as u64;
    let by = count * random.pick(&[1, 1, MINUTE, DAY, YEAR]);
    (if random.once_in(2) { midp.saturating_add(by) } else { midp.saturating_sub(by) }, radi)
}

/// A number at which something ends, or any.
pub fn edge(random: &mut Xorshift, edges: &[u64]) -> u64 {
    let any = number(random);
    if random.once_in(4) {
        any
    } else {
        random.pick(edges)
    }
}

/// A state that no start led to: one in three of them could have come from one.
pub fn made_up(random: &mut Xorshift) -> tb_walk {
    let mut state = unstarted(random);
    let large = [0, 1, 2, 9, 10, 1 << 32, (1 << 32) + 3, (1 << 63) + 4, u64::MAX];
    state.count = if random.once_in(5) { edge(random, &large) } else { 3 + random.below(6) as u64 };
    let end = state.count.wrapping_mul(2);
    let steps = [end, end.wrapping_add(1), end.wrapping_sub(1), u64::MAX, 1 << 63, 1 << 32];
    let within = random.next() % end.max(1);
    state.step = if random.once_in(4) { edge(random, &steps) } else { within };
    if random.once_in(3) {
        state.step = end.wrapping_sub(1);
    }
    state.last = edge(random, &[0, 1, 100, u64::MAX - 1, u64::MAX]);
    state.most = edge(random, &[0, 1, 5, u64::MAX - 1, u64::MAX]);
    if random.once_in(4) {
        // One key twice, which no start lets pass.
        state.keys.copy_within(0..32, 32);
    }
    state
}

/// A buffer for the pile of a state: of any bytes, or full of records that are valid and linked, as
/// far as they are not written over.
pub fn any_pile(random: &mut Xorshift, state: &tb_walk, chain: &[u8]) -> Vec<u8> {
    let whole = 2 * state.count.min(9) as usize * RECORD;
    let any = random.below(whole + 1);
    let more = whole + random.below(100);
    let length = random.pick(&[whole, whole, whole, more, whole.saturating_sub(1), any, 0]);
    if random.once_in(2) {
        return random.bytes(length);
    }
    let mut pile = chain.to_vec();
    pile.resize(length, 0xee);
    pile
}

/// The bytes of a state with others around it, which no call may touch.
#[repr(C)]
pub struct Between {
    before: [u8; 64],
    pub state: tb_walk,
    after: [u8; 64],
}

impl Between {
    pub fn new(state: tb_walk) -> Self {
        Between { before: [0xc5; 64], state, after: [0xc5; 64] }
    }

    pub fn untouched(&self) -> bool {
        [self.before, self.after] == [[0xc5; 64]; 2]
    }
}
