//! A batch, what it is answered with, and what is counted of it: of UDP and of TCP alike.

use crate::counts::Counts;
use crate::delegation::Delegation;
use crate::grease::Grease;
use crate::spoilt::Spoiling;
use crate::timekeeper::{Timekeeper, Told};
use std::sync::mpsc::Receiver;
use std::sync::Arc;
use trawlbeacon::{read_request, srv_value, Batch, Hash, SigningKey};

pub struct Answering {
    pub batch: Batch,
    pub counts: Arc<Counts>,
    delegation: Delegation,
    key: SigningKey,
    srv: Hash,
    /// Delegations that came while this one was used.
    newer: Receiver<Delegation>,
    keeper: Timekeeper,
    grease: Option<Grease>,
    /// Answers that stand in the place of those of the batch.
    spoilt: Vec<(usize, Vec<u8>)>,
}

impl Answering {
    pub fn new(
        delegation: Delegation,
        newer: Receiver<Delegation>,
        keeper: Timekeeper,
        grease: Option<Grease>,
        counts: Arc<Counts>,
    ) -> Answering {
        let (batch, key) = (delegation.batch(), delegation.seed.signing_key());
        let srv = srv_value(&delegation.long_term);
        let spoilt = Vec::new();
        Answering { batch, counts, delegation, key, srv, newer, keeper, grease, spoilt }
    }

    /// Between batches: takes the newest delegation that came, and looks at the clock, so that no
    /// jump of it goes unnoticed while nobody asks.
    pub fn rest(&mut self) {
        self.refresh();
        // Where nothing is asked nobody is told.
        let _ = self.keeper.now();
    }

    fn refresh(&mut self) {
        if let Some(newest) = self.newer.try_iter().last() {
            self.key = newest.seed.signing_key();
            self.srv = srv_value(&newest.long_term);
            // Packets that were received already are answered by the new one.
            let mut batch = newest.batch();
            for place in 0..self.batch.len() {
                // As many as were in the other, so that there is room.
                let _ = batch.push(self.batch.packet(place).unwrap_or(&[]));
            }
            (self.batch, self.delegation) = (batch, newest);
        }
    }

    /// Answers what is in the batch. Where no time may be signed nothing is answered.
    pub fn answer(&mut self) {
        self.refresh();
        self.spoilt.clear();
        let waiting = self.batch.len() as u64;
        self.counts.asked.add(waiting);
        let answered = self.time().and_then(|told| {
            let count = self.batch.answer(told.midp, told.radi).ok()?;
            Some((told, count as u64))
        });
        match answered {
            Some((told, count)) => {
                self.counts.batches.add(u64::from(count > 0));
                if count < waiting {
                    self.tell_refused();
                }
                self.spoil(told);
            }
            None => {
                self.counts.silent.add(waiting);
                // What an earlier batch left is no answer to this one.
                self.batch.clear();
            }
        }
    }

    /// The time, where the clock and the delegation allow to sign it.
    fn time(&mut self) -> Option<Told> {
        let told = self.keeper.now().ok()?;
        let Delegation { mint, maxt, .. } = self.delegation;
        (mint..=maxt).contains(&told.midp).then_some(told)
    }

    /// Counts why the packets that have no answer have none.
    fn tell_refused(&self) {
        let mut answered = self.batch.answers().map(|(place, _)| place).peekable();
        for place in 0..self.batch.len() {
            if answered.next_if_eq(&place).is_some() {
                continue;
            }
            let counts = &self.counts;
            // One that was longer than its slot is longer than a packet may be.
            match self.batch.packet(place).map(read_request) {
                None => counts.refused[1].add(1),
                Some(Err(why)) => {
                    let code = why.code() as usize;
                    counts.refused.get(code).unwrap_or(&counts.refused[0]).add(1);
                }
                Some(Ok(request)) if request.srv.is_some_and(|srv| srv != self.srv) => {
                    counts.elsewhere.add(1);
                }
                Some(Ok(_)) => counts.short.add(1),
            }
        }
    }

    /// Puts spoilt answers in the place of some, where that was asked for.
    fn spoil(&mut self, told: Told) {
        let Some(grease) = &mut self.grease else { return };
        let (delegation, key) = (&self.delegation, &self.key);
        for (place, answer) in self.batch.answers() {
            if let Some(request) = self.batch.packet(place).filter(|_| grease.chooses()) {
                let made = grease.spoil(&Spoiling { request, answer, delegation, key, told });
                self.spoilt.extend(made.map(|answer| (place, answer)));
            }
        }
        self.counts.greased.add(self.spoilt.len() as u64);
    }

    /// The answers, with the places of their packets.
    pub fn answers(&self) -> impl Iterator<Item = (usize, &[u8])> {
        let mut spoilt = self.spoilt.iter().peekable();
        self.batch.answers().map(move |(place, answer)| {
            match spoilt.next_if(|(at, _)| *at == place) {
                Some((_, other)) => (place, &other[..]),
                None => (place, answer),
            }
        })
    }
}
