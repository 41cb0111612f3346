//! The threads that answer, one for each socket, and what they share with the one that tells: no
//! more than counters, and a way to send them a delegation.

use crate::answering::Answering;
use crate::counts::{Counts, Sum};
use crate::delegation::Delegation;
use crate::ending::{ending, Ender, Ending};
use crate::grease::Grease;
use crate::listening::Listening;
use crate::serve::Served;
use crate::sockets::dropped;
use crate::stop::Stop;
use crate::tcp::Tcp;
use crate::timekeeper::Timekeeper;
use crate::udp;
use std::net::UdpSocket;
use std::os::unix::io::AsRawFd;
use std::sync::mpsc::{channel, Sender};
use std::sync::Arc;
use std::thread::{self, JoinHandle};

pub struct Threads {
    ender: Ender,
    ending: Ending,
    handles: Vec<JoinHandle<()>>,
    newer: Vec<Sender<Delegation>>,
    udp: Vec<(Arc<UdpSocket>, Arc<Counts>)>,
    tcp: Vec<Arc<Counts>>,
}

impl Threads {
    /// None yet.
    pub fn new() -> Result<Threads, Stop> {
        let no_stream = |error| Stop::Failed(format!("the system gives no stream: {error}"));
        let (ender, ending) = ending().map_err(no_stream)?;
        let (handles, newer, udp, tcp) = (Vec::new(), Vec::new(), Vec::new(), Vec::new());
        Ok(Threads { ender, ending, handles, newer, udp, tcp })
    }

    fn answering(&mut self, served: &Served, delegation: &Delegation) -> Result<Answering, Stop> {
        let (sender, newer) = channel();
        self.newer.push(sender);
        let keeper = Timekeeper::new(served.policy.clone());
        let grease = served.grease.clone().map(Grease::new).transpose()?;
        Ok(Answering::new(delegation.again(), newer, keeper, grease, Arc::default()))
    }

    pub fn start(
        &mut self,
        at: Listening,
        served: &Served,
        delegation: &Delegation,
    ) -> Result<(), Stop> {
        for socket in at.udp {
            let (answering, ending) = (self.answering(served, delegation)?, self.ending.clone());
            self.udp.push((socket.clone(), answering.counts.clone()));
            self.handles.push(thread::spawn(move || udp::serve(&socket, answering, &ending)));
        }
        if let (Some(listener), Some(limits)) = (at.tcp, served.tcp) {
            let (answering, ending) = (self.answering(served, delegation)?, self.ending.clone());
            self.tcp.push(answering.counts.clone());
            let tcp = Tcp::new(listener, answering, limits);
            self.handles.push(thread::spawn(move || tcp.serve(&ending)));
        }
        Ok(())
    }

    /// Sends each a delegation, which it takes before its next batch.
    pub fn delegate(&self, delegation: &Delegation) {
        for sender in &self.newer {
            // A thread that is gone is noticed elsewhere.
            let _ = sender.send(delegation.again());
        }
    }

    /// Whether one ended by itself.
    pub fn ended(&self) -> bool {
        self.handles.iter().any(JoinHandle::is_finished)
    }

    /// Has them answer what waits, and end.
    pub fn end(&mut self) {
        self.ender.end();
        for handle in self.handles.drain(..) {
            // How it ended is told already.
            let _ = handle.join();
        }
    }

    /// What was counted of UDP, and of TCP.
    pub fn sums(&self) -> (Sum, Sum) {
        let (mut udp, mut tcp) = (Sum::default(), Sum::default());
        for (socket, counts) in &self.udp {
            udp.add(counts);
            udp.dropped += dropped(socket.as_raw_fd());
        }
        for counts in &self.tcp {
            tcp.add(counts);
        }
        (udp, tcp)
    }

    /// Both in one.
    pub fn sum(&self) -> Sum {
        let (mut sum, _) = self.sums();
        for counts in &self.tcp {
            sum.add(counts);
        }
        sum
    }
}
