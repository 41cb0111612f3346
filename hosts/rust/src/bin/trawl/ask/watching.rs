//! Measuring over and over, until somebody ends it.

use super::asker::{Asker, Halt};
use super::moment::Moment;
use super::worker::Event;
use crate::signals::Signals;
use crate::status::{reason, Ended, Stop};
use std::sync::mpsc::Sender;
use std::thread;
use std::time::Duration;

/// How long is waited for a signal before it is waited once more.
const TICK: Duration = Duration::from_secs(3_600);

pub struct Watch {
    interval: Duration,
    signals: Signals,
}

impl Watch {
    /// From now on signals end nothing by themselves, in any thread that is started later either.
    pub fn new(interval: Duration) -> Watch {
        Watch { interval, signals: Signals::hold() }
    }

    /// Measures, and again whenever the interval is over. It ends as the last measurement did.
    pub fn over_and_over(
        self,
        asker: &mut Asker,
        mut measure: impl FnMut(&mut Asker) -> Result<Ended, Halt>,
    ) -> Result<Ended, Stop> {
        let interval = self.interval;
        let (signals, sender) = (self.signals, asker.sender.clone());
        thread::Builder::new()
            .spawn(move || tell_of_signals(&signals, &sender))
            .map_err(|error| Stop::failed("a thread", reason(error)))?;
        let mut last = Ended::NoTime;
        loop {
            let next = Moment::now().after(interval);
            let halt = match measure(asker) {
                Ok(ended) => {
                    last = ended;
                    rest(asker, next).err()
                }
                Err(halt) => Some(halt),
            };
            match halt {
                None => (),
                Some(Halt::Ended) => return Ok(last),
                Some(Halt::Failed(stop)) => return Err(stop),
            }
        }
    }
}

/// Any of the signals that are held ends it.
fn tell_of_signals(signals: &Signals, sender: &Sender<Event>) {
    loop {
        if signals.wait(TICK).is_some() && sender.send(Event::End).is_err() {
            return;
        }
    }
}

/// Waits for the next measurement, and takes what comes late.
fn rest(asker: &mut Asker, next: Moment) -> Result<(), Halt> {
    while !next.is_past() {
        asker.next(next)?;
    }
    Ok(())
}
