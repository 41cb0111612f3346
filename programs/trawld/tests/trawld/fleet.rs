//! Clients of a fleet: machines of one server, of which they know one address and one key. It is
//! tools/try-fleet that sets it up, and says by variables what there is.

use crate::asking::{checked, connected_from, heard, packet, request};
use crate::random::Random;
use std::collections::BTreeMap;
use std::env;
use std::io::Write;
use std::net::{SocketAddr, TcpStream};
use std::time::Duration;
use trawlbeacon::{link, Checked, REQUEST_LENGTH};

/// Requests over UDP and over TCP, each of a flow of its own.
const UDP: usize = 200;
const TCP: usize = 30;

/// So long an answer is waited for, where it can be asked again by another flow, and where not.
const SOON: Duration = Duration::from_millis(100);
const LATE: Duration = Duration::from_secs(10);

fn variable(name: &str) -> String {
    let name = format!("TRAWLD_FLEET{name}");
    env::var(&name).unwrap_or_else(|_| panic!("{name} is not set; tools/try-fleet sets it"))
}

struct Fleet {
    address: SocketAddr,
    key: [u8; 32],
    /// How often a request may be sent.
    tries: usize,
    /// Requests that were sent again.
    again: usize,
}

impl Fleet {
    fn of_variables() -> Fleet {
        let digits = variable("_KEY");
        let byte = |at: usize| u8::from_str_radix(&digits[at..at + 2], 16).expect("it is hex");
        let key: Vec<u8> = (0..64).step_by(2).map(byte).collect();
        Fleet {
            address: variable("").parse().expect("it is an address"),
            key: key.try_into().expect("they are 32"),
            tries: variable("_TRIES").parse().expect("it is a number"),
            again: 0,
        }
    }

    /// Asks by new flows until one is answered.
    fn ask(&mut self, once: impl Fn(&Fleet) -> Option<Vec<u8>>) -> Vec<u8> {
        for number in 0..self.tries {
            self.again += usize::from(number > 0);
            if let Some(response) = once(self) {
                return response;
            }
        }
        panic!("there is no answer to a request that was sent {} times", self.tries);
    }

    fn patience(&self) -> Duration {
        if self.tries > 1 {
            SOON
        } else {
            LATE
        }
    }

    fn udp(&self, request: &[u8]) -> Option<Vec<u8>> {
        let socket = connected_from("0.0.0.0:0", self.address);
        socket.send(request).ok()?;
        heard(&socket, self.patience())
    }

    fn tcp(&self, request: &[u8]) -> Option<Vec<u8>> {
        let mut stream = TcpStream::connect_timeout(&self.address, self.patience()).ok()?;
        stream.set_read_timeout(Some(self.patience())).ok()?;
        stream.write_all(request).ok()?;
        let mut first = [0; 1];
        stream.peek(&mut first).ok().filter(|count| *count > 0)?;
        packet(&mut stream)
    }
}

/// Each request is made of the answer before it, as in a walk: so that each pair of answers of any
/// two machines must agree.
#[test]
#[ignore = "tools/try-fleet runs it, in a network of its own"]
fn one_server() {
    let (mut fleet, mut random) = (Fleet::of_variables(), Random::new(7));
    let key = fleet.key;
    let mut request = request(&key, &mut random);
    let (mut by_machine, mut latest) = (BTreeMap::<[u8; 32], usize>::new(), 0);
    for number in 0..UDP + TCP {
        let response = match number < UDP {
            true => fleet.ask(|fleet| fleet.udp(&request)),
            false => fleet.ask(|fleet| fleet.tcp(&request)),
        };
        let Checked { window, pubk, .. } = checked(&key, &request, &response);
        // MIDP - RADI of none is after MIDP + RADI of a later one (draft 19, 8.2).
        assert!(latest <= window.high, "two machines contradict each other");
        latest = latest.max(window.low);
        *by_machine.entry(pubk).or_default() += 1;
        request = vec![0; REQUEST_LENGTH];
        let nonce = link(&response, &random.array());
        trawlbeacon::write_request(&key, &nonce, &mut request).expect("there is room");
    }
    let counts: Vec<String> = by_machine.values().map(usize::to_string).collect();
    println!(
        "fleet: {UDP} requests over UDP and {TCP} over TCP are answered under one key, by {} \
         machines ({}), and {} were sent again",
        counts.len(),
        counts.join(", "),
        fleet.again
    );
    assert_eq!(counts.len().to_string(), variable("_MACHINES"));
}
