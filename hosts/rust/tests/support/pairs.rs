//! Requests with the responses to them: valid ones, and such as break one of the rules or several.
//!
//! A rule is named by the code that it leads to. No breach touches what another is about, where they
//! are made in the order of the codes, so that the first of all rules that were broken is the one
//! that is due.

use super::answers::{placed, Bad, Both, Said};
use super::packets::{know_better, number, RequestFields, ResponseFields};
use super::trees::Walk;
use super::{hex, Xorshift};
use independent::hash::{self, Hash};
use independent::{check, packet, place};
use trawlbeacon::{raw, Checked, Window};

/// The rules that come after a response's own shape. Of 8 it is the one that asks for a request.
pub const RULES: [u32; 6] = [8, 9, 10, 11, 12, 13];

/// Numbers that are not 1, as a library may answer to say that it failed, or that are 1 in some of
/// their bits.
pub const NOES: [u32; 7] = [0, u32::MAX, 2, 3, 256, 257, 0x0100_0000];

/// A request and the response to it.
#[derive(Clone)]
pub struct Pair {
    pub request: RequestFields,
    pub response: ResponseFields,
    pub delegation: bool,
    pub signature: bool,
}

/// What a check is asked.
#[derive(Clone)]
pub struct Question {
    pub request: Vec<u8>,
    pub response: Vec<u8>,
    pub delegation: bool,
    pub signature: bool,
}

impl Pair {
    /// A valid pair, whose path has `depth` siblings.
    pub fn random(random: &mut Xorshift, depth: usize) -> Self {
        let request = RequestFields::random(random);
        let mut response = ResponseFields::random(random);
        response.path = (0..depth).map(|_| random.array()).collect();
        response.indx = (random.next() % (1 << depth)) as u32;
        response.trim();
        let mut times = [number(random), number(random), number(random)];
        times.sort_unstable();
        [response.mint, response.midp, response.maxt] = times;
        let mut pair = Pair { request, response, delegation: true, signature: true };
        pair.know_no_better();
        pair.tie();
        pair
    }

    /// Makes the server forget each version above 1 that the client knows too.
    pub fn know_no_better(&mut self) {
        let known = &self.request.versions;
        self.response.versions.retain(|version| *version <= 1 || !known.contains(version));
    }

    /// Whether the server answered with a lower version than both know.
    pub fn talked_down(&self) -> bool {
        know_better(&self.request.versions, &self.response.versions)
    }

    /// Makes the response tell this window, within the time of its delegation.
    pub fn tell(&mut self, midp: u64, radi: u32) {
        let ResponseFields { mint, maxt, .. } = self.response;
        let (mint, maxt) = (mint.min(midp), maxt.max(midp));
        self.response = ResponseFields { midp, radi, mint, maxt, ..self.response.clone() };
    }

    /// Makes the response answer the request as it is now.
    pub fn tie(&mut self) {
        self.response.nonc = self.request.nonc;
        self.response.root = self.root_from(hash::leaf(&self.request.packet()), self.response.indx);
    }

    /// Where the path leads from this leaf, by this number.
    fn root_from(&self, leaf: Hash, indx: u32) -> Hash {
        Walk::right(leaf, indx, &self.response.path).root
    }

    pub fn question(&self) -> Question {
        Question {
            request: self.request.packet(),
            response: self.response.packet(),
            delegation: self.delegation,
            signature: self.signature,
        }
    }

    /// What must be told where the pair is valid, by the words of the document.
    pub fn checked(&self) -> Checked {
        let ResponseFields { midp, radi, mint, maxt, pubk, .. } = self.response;
        let wide = u64::from(radi);
        let (low, high) = (midp.saturating_sub(wide), midp.saturating_add(wide));
        Checked { window: Window { midp, radi, low, high, mint, maxt }, pubk }
    }

    /// Breaks one of [`RULES`].
    pub fn break_rule(&mut self, random: &mut Xorshift, rule: u32) {
        match rule {
            8 => self.break_versions(random),
            9 => self.break_nonce(random),
            10 => self.break_path(random),
            11 => self.break_times(random),
            12 => self.delegation = false,
            13 => self.signature = false,
            _ => panic!("there is no rule {rule} here"),
        }
    }

    /// Makes both sides know a version above the one that was chosen. The request is part of the
    /// leaf, so that the path is led anew: no other rule may be broken yet.
    fn break_versions(&mut self, random: &mut Xorshift) {
        if self.request.versions.iter().all(|version| *version <= 1) {
            let any = random.next() as u32 | 2;
            self.request.versions.push(random.pick(&[2, any, 0x8000_000c]));
            self.request.trim();
        }
        let above: Vec<u32> =
            self.request.versions.iter().copied().filter(|version| *version > 1).collect();
        let versions = &mut self.response.versions;
        versions.truncate(31);
        versions.push(random.pick(&above));
        versions.sort_unstable();
        versions.dedup();
        self.response.trim();
        self.tie();
    }

    fn break_nonce(&mut self, random: &mut Xorshift) {
        if random.once_in(2) {
            // The answer to another request, which leads to its root.
            self.request.nonc = random.array();
            let nonc = self.response.nonc;
            self.tie();
            self.response.nonc = nonc;
        } else {
            flip(random, &mut self.response.nonc);
        }
    }

    fn break_path(&mut self, random: &mut Xorshift) {
        let request = self.request.packet();
        let depth = self.response.path.len();
        let indx = self.response.indx;
        match random.below(10) {
            0 if depth > 0 => self.response.indx ^= 1 << random.below(depth),
            1 if depth < 32 => self.response.indx |= 1 << (depth + random.below(32 - depth)),
            2 if depth > 0 => {
                let at = random.below(depth);
                flip(random, &mut self.response.path[at]);
            }
            3 if depth > 0 => drop(self.response.path.remove(random.below(depth))),
            4 if depth < 32 => {
                self.response.path.push(random.array());
                self.response.trim();
            }
            // The other order of the two hashes at every step.
            5 if depth > 0 => self.response.root = self.root_from(hash::leaf(&request), !indx),
            // The leaf of the message without its header.
            6 => self.response.root = self.root_from(hash::leaf(&request[packet::HEADER..]), indx),
            // The hash of the packet without the byte in front that makes it a leaf.
            7 => self.response.root = self.root_from(hash::h(&[&request]), indx),
            8 => self.response.root = random.array(),
            _ => flip(random, &mut self.response.root),
        }
    }

    /// Takes MIDP out of the delegation's time, by one second or by many.
    fn break_times(&mut self, random: &mut Xorshift) {
        let ResponseFields { midp, .. } = self.response;
        let far = if random.once_in(2) { 0 } else { number(random) };
        if midp < u64::MAX && (midp == 0 || random.once_in(2)) {
            self.response.mint = (midp + 1).saturating_add(far);
        } else {
            self.response.maxt = (midp - 1).saturating_sub(far);
        }
    }
}

/// Turns one bit.
fn flip(random: &mut Xorshift, hash: &mut Hash) {
    hash[random.below(32)] ^= 1 << random.below(8);
}

impl Said for Checked {
    fn say(&self) -> String {
        let Window { midp, radi, low, high, mint, maxt } = self.window;
        let key = hex(&self.pubk);
        format!("MIDP {midp} RADI {radi} from {low} to {high}, key {key} from {mint} to {maxt}")
    }
}

/// Every field of what C is answered: all but the code and the byte is 0 where a call is refused.
pub fn whole(told: &Result<Checked, Bad>) -> raw::tb_verdict {
    match *told {
        Ok(Checked { window: Window { midp, radi, low, high, mint, maxt }, pubk }) => {
            raw::tb_verdict { code: 0, radi, at: 0, midp, low, high, mint, maxt, pubk }
        }
        Err(Bad { code, at }) => {
            let (at, pubk) = (at.unwrap_or(0) as u64, [0; 32]);
            let [midp, low, high, mint, maxt] = [0; 5];
            raw::tb_verdict { code, radi: 0, at, midp, low, high, mint, maxt, pubk }
        }
    }
}

/// The independent side's answer, as ours has it.
pub fn same_checked(check::Valid { window, pubk }: check::Valid) -> Checked {
    let check::Window { midp, radi, low, high, mint, maxt } = window;
    Checked { window: Window { midp, radi, low, high, mint, maxt }, pubk }
}

impl Question {
    pub fn ask(&self) -> Both<Result<Checked, Bad>> {
        let Question { request, response, delegation, signature } = self;
        let independent = check::check(request, response, *delegation, *signature);
        let ours = trawlbeacon::check_response(request, response, *delegation, *signature);
        Both {
            ours: ours.map_err(Bad::from),
            independent: independent
                .map(same_checked)
                .map_err(|refusal| placed(refusal, place::in_response(response))),
        }
    }

    /// What is wrong with the fields that hosts/rust does not show, or not whole, where it answered
    /// `ours`.
    pub fn unseen_fields(&self, ours: &Result<Checked, Bad>) -> Option<String> {
        let Question { request, response, delegation, signature } = self;
        let ((start, n), (start_too, m)) =
            ((request.as_ptr(), request.len()), (response.as_ptr(), response.len()));
        // Only 1 is yes, so that each of these must do for no.
        let no = NOES[(n + m) / 4 % NOES.len()];
        let [delegation, signature] = [delegation, signature].map(|yes| if *yes { 1 } else { no });
        // SAFETY: the library only reads both packets.
        let verdict = unsafe {
            raw::tb_check_response(
                start,
                raw::size(n),
                start_too,
                raw::size(m),
                delegation,
                signature,
            )
        };
        (verdict != whole(ours)).then(|| format!("tb_check_response answered {verdict:?}"))
    }

    pub fn show(&self) -> String {
        let (request, response) = (hex(&self.request), hex(&self.response));
        let answers = format!("delegation {} signature {}", self.delegation, self.signature);
        format!("{answers}\n  request {request}\n  response {response}")
    }
}
