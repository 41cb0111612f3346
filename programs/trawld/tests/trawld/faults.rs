//! Disks that are full, outputs that are closed, and an end without warning.

use crate::asking::{ask, ask_stream};
use crate::folder::{Folder, PROGRAM};
use crate::server::{signal, Server, PATIENCE, SIGKILL, SIGTERM};
use std::fs;
use std::io::{Read, Write};
use std::net::{SocketAddr, UdpSocket};
use std::os::unix::io::OwnedFd;
use std::os::unix::net::UnixStream;
use std::process::{Child, Command, Stdio};
use std::sync::atomic::{AtomicBool, Ordering};
use std::sync::Arc;
use std::thread;
use std::time::{Duration, Instant};

fn free_port() -> SocketAddr {
    let socket = UdpSocket::bind("127.0.0.1:0").expect("there is a free port");
    socket.local_addr().expect("it is bound")
}

/// Ends with the test, however that ends.
struct Started(Child);

impl Drop for Started {
    fn drop(&mut self) {
        let _ = self.0.kill();
        let _ = self.0.wait();
    }
}

#[test]
fn it_answers_though_nothing_can_be_written() {
    let folder = Folder::with_delegation(3);
    for output in [">&-", ">/dev/full", ">&- 2>&-"] {
        let address = free_port();
        let start = format!(
            "exec '{PROGRAM}' delegation --trust-clock --line 1 --metrics /dev/full --listen \
             {address} {output}"
        );
        let mut command = Command::new("sh");
        command.args(["-c", &start]).current_dir(folder.path());
        let _started = Started(command.spawn().expect("it can be started"));
        ask(address, &folder.public_key());
        thread::sleep(Duration::from_millis(1500));
        ask(address, &folder.public_key());
        ask_stream(address, &folder.public_key());
    }
}

#[test]
fn figures_that_cannot_be_written_are_told_of_and_not_missed() {
    let folder = Folder::with_delegation(3);
    fs::create_dir(folder.file("folder")).expect("it can be made");
    for file in ["/dev/full", "folder", "none/figures"] {
        let mut server = Server::trusting(&folder, &["--metrics", file]);
        server.line(&format!("{file} could not be written"));
        ask(server.address(), &server.key);
        assert!(server.end(SIGTERM).success());
    }
}

/// A disk with one page, on which the figures do not fit. It is mounted in a namespace of its own,
/// where the system lets us make one.
#[test]
fn a_full_disk_costs_the_figures_alone() {
    let (folder, address) = (Folder::with_delegation(3), free_port());
    fs::create_dir(folder.file("disk")).expect("it can be made");
    let mount = "mount -t tmpfs -o size=4k none disk";
    let mut tried = Command::new("unshare");
    tried.args(["-m", "sh", "-c", mount]).current_dir(folder.path()).stderr(Stdio::null());
    if !tried.status().is_ok_and(|status| status.success()) {
        println!("LEFT OUT: a disk that is full, since none can be mounted here");
        return;
    }
    let start = format!(
        "{mount}; exec '{PROGRAM}' delegation --trust-clock --metrics disk/figures --listen \
         {address}"
    );
    let mut command = Command::new("unshare");
    command.args(["-m", "sh", "-c", &start]).current_dir(folder.path()).stdout(Stdio::piped());
    let mut started = Started(command.spawn().expect("it can be started"));
    ask(address, &folder.public_key());
    thread::sleep(Duration::from_millis(500));
    ask_stream(address, &folder.public_key());
    signal(started.0.id(), SIGTERM);
    assert!(started.0.wait().expect("it is ours").success());
    let mut said = String::new();
    let out = started.0.stdout.as_mut().expect("it is piped");
    out.read_to_string(&mut said).expect("it is text");
    assert!(said.contains("disk/figures could not be written: No space left"), "{said}");
    assert!(said.contains(" answered 2 "), "{said}");
}

/// Who reads no lines holds up nothing, not even the end.
#[test]
fn lines_that_nobody_reads_hold_up_nothing() {
    let (folder, address) = (Folder::with_delegation(3), free_port());
    let (mut full, _unread) = UnixStream::pair().expect("there are two ends");
    full.set_nonblocking(true).expect("it is ours");
    while full.write(&[b'x'; 4096]).is_ok() {}
    full.set_nonblocking(false).expect("it is ours");
    let mut command = Command::new(PROGRAM);
    command.args(["delegation", "--trust-clock", "--line", "1", "--listen", &address.to_string()]);
    command.current_dir(folder.path()).stdout(Stdio::from(OwnedFd::from(full)));
    let mut started = Started(command.spawn().expect("it can be started"));
    ask(address, &folder.public_key());
    thread::sleep(Duration::from_secs(2));
    ask(address, &folder.public_key());
    signal(started.0.id(), SIGTERM);
    let end = Instant::now() + PATIENCE;
    while started.0.try_wait().expect("it is ours").is_none() {
        assert!(Instant::now() < end, "it has not ended");
        thread::sleep(Duration::from_millis(10));
    }
}

#[test]
fn killed_and_started_again_it_has_lost_nothing() {
    let folder = Folder::with_delegation(3);
    let delegation = folder.read("delegation");
    let mut server = Server::trusting(&folder, &["--metrics", "figures"]);
    let address = server.address();
    // Others ask all the while, and each answer that they hear is valid.
    let (key, done) = (server.key, Arc::new(AtomicBool::new(false)));
    let others: Vec<_> = (0..2)
        .map(|_| {
            let done = done.clone();
            thread::spawn(move || {
                let mut count = 0;
                while !done.load(Ordering::SeqCst) {
                    ask(address, &key);
                    count += 1;
                }
                count
            })
        })
        .collect();
    for _ in 0..3 {
        let pubk = ask(address, &server.key).pubk;
        let end = Instant::now() + PATIENCE;
        while !folder.file("figures").exists() && Instant::now() < end {
            thread::sleep(Duration::from_millis(10));
        }
        assert!(!server.end(SIGKILL).success());
        assert_eq!(folder.read("delegation"), delegation);
        assert!(folder.read("figures").ends_with('\n'));
        let listen = address.to_string();
        let start = Instant::now();
        server = Server::trusting(&folder, &["--metrics", "figures", "--listen", &listen]);
        assert_eq!(ask(address, &key).pubk, pubk);
        ask_stream(address, &key);
        println!("killed and started again, it answered after {:?}", start.elapsed());
    }
    done.store(true, Ordering::SeqCst);
    for other in others {
        assert!(other.join().expect("no answer is wrong") > 0);
    }
    assert!(server.end(SIGTERM).success());
}

/// A second server at the same port is a mistake, and says so.
#[test]
fn a_port_that_is_taken_is_told_of() {
    let folder = Folder::with_delegation(3);
    let server = Server::trusting(&folder, &[]);
    let listen = server.address().to_string();
    let said = folder.run(&["delegation", "--listen", &listen]);
    let said = crate::folder::complaint(&said, 1);
    assert!(said.contains("cannot listen at") && said.contains("--listen"), "{said}");
}
