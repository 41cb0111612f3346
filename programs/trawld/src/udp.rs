//! A UDP socket: what waits there is received, answered with one signature and sent, and then again.

use crate::answering::Answering;
use crate::ending::Ending;
use crate::poll::{wait, Waited, READ};
use crate::post::Post;
use std::net::UdpSocket;
use std::os::unix::io::AsRawFd;
use std::sync::Arc;
use trawlbeacon::MOST_LEAVES;

/// Batches that are still answered when it is time to end: what waits then was asked before.
const LAST: usize = 8;

/// While nobody asks, the clock is looked at so often.
const REST: u16 = 1000;

pub fn serve(socket: &Arc<UdpSocket>, mut answering: Answering, ending: &Ending) {
    let (socket, mut post, mut last) = (socket.as_raw_fd(), Post::new(), 0);
    let mut waited = [Waited::new(socket, READ), Waited::new(ending.descriptor(), READ)];
    let mut more = false;
    while last < LAST {
        // A batch that was not full took all that waited.
        if !more && !ending.told() {
            wait(&mut waited, REST);
            if !waited.iter().any(Waited::came) {
                answering.rest();
            }
        }
        answering.batch.clear();
        match post.receive(socket, &mut answering.batch) {
            Ok(count) if count > 0 => {
                answering.answer();
                let sent = post.send(socket, answering.answers());
                answering.counts.answered.add(sent.sent);
                answering.counts.unsent.add(sent.failed);
                last += usize::from(ending.told());
                more = count == MOST_LEAVES;
            }
            // Nothing waits. Another error is of one packet, and the next is received all the same.
            _ if ending.told() => return,
            _ => more = false,
        }
    }
}
