//! Clocks: how both sides are called, and states that no start led to.

use super::packets::number;
use super::Xorshift;
use independent::clock::{Clock, Heard, Time, SERVERS};
use independent::refusal::Refusal;
use trawlbeacon::raw::{tb_clock, tb_time};
use trawlbeacon::Window;

/// What was heard, as a window. MIDP, RADI and MINT play no part.
pub fn window(heard: &Heard) -> Window {
    let Heard { low, high, maxt, .. } = *heard;
    Window { midp: low, radi: 1, low, high, mint: 0, maxt }
}

pub fn take(state: &mut tb_clock, server: u64, heard: &Heard) -> u32 {
    state.take(server, &window(heard), [heard.sent, heard.received])
}

/// The independent side's state, as ours lays it out.
pub fn laid(clock: &Clock) -> tb_clock {
    let mut state = tb_clock { drift: clock.drift, ..tb_clock::ZERO };
    for (place, heard) in clock.kept.iter().flatten().enumerate() {
        state.low[place] = heard.low;
        state.high[place] = heard.high;
        state.maxt[place] = heard.maxt;
        state.sent[place] = heard.sent;
        state.received[place] = heard.received;
    }
    state
}

/// A state as the independent side has it.
pub fn read_back(state: &tb_clock) -> Clock {
    let heard = |place: usize| Heard {
        low: state.low[place],
        high: state.high[place],
        maxt: state.maxt[place],
        sent: state.sent[place],
        received: state.received[place],
    };
    let mut kept = [[Heard::default(); 2]; SERVERS];
    for (server, kept) in kept.iter_mut().enumerate() {
        *kept = [heard(2 * server), heard(2 * server + 1)];
    }
    Clock { drift: state.drift, kept }
}

/// What ours must answer where the independent side answered that.
pub fn told(answer: &Result<Time, Refusal>) -> tb_time {
    let set = |servers: &[usize]| servers.iter().map(|server| 1 << server).sum();
    let (code, none) = (answer.as_ref().map_or_else(|refusal| refusal.code(), |_| 0), 0);
    match answer {
        Ok(time) => tb_time {
            code,
            stopped: time.stopped.into(),
            low: time.low,
            high: time.high,
            counted: time.counted as u64,
            agree: set(&time.agree),
            suspects: set(&time.suspects),
        },
        Err(_) => tb_time {
            code,
            stopped: 0,
            low: none,
            high: none,
            counted: none,
            agree: none,
            suspects: none,
        },
    }
}

/// A state of any numbers: of any size, or of one kind so close together that spans meet or just do
/// not, or at both ends of what can be told.
pub fn made_up(random: &mut Xorshift) -> tb_clock {
    let any = number(random) as u32;
    let drift = random.pick(&[0, 100, 999_999, 1_000_000, 1_000_001, u32::MAX, any, any]);
    let mut state = tb_clock { drift, ..tb_clock::ZERO };
    let (kind, unit) = (random.below(3), random.pick(&[1, 1_000, 1_000_000]));
    let near = u64::MAX / 1_000_000;
    let draw = |random: &mut Xorshift, base: u64, width: usize, scale: u64| match kind {
        0 => number(random),
        _ if random.once_in(24) => random.pick(&[0, u64::MAX, base]),
        1 => base.saturating_add(scale * random.below(width) as u64),
        _ => near.saturating_add(random.below(width) as u64).saturating_sub(width as u64 / 2),
    };
    for place in 0..16 {
        state.low[place] = draw(random, 1_000, 8, 1);
        state.high[place] = draw(random, 1_004, 8, 1);
        state.maxt[place] = if random.once_in(4) { draw(random, 1_000, 20, 1) } else { u64::MAX };
        state.sent[place] = if kind == 0 { number(random) } else { unit * random.below(9) as u64 };
        let later = unit * random.below(4) as u64;
        state.received[place] = if random.once_in(8) {
            number(random)
        } else {
            state.sent[place].saturating_add(later)
        };
    }
    state
}
