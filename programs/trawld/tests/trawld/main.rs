//! The program as who runs it sees it: it is started, asked over loopback, and told things by
//! signals and files.

mod asking;
mod certificates;
mod clocks;
mod faults;
mod fleet;
mod folder;
mod greased;
mod keys;
mod load;
mod papers;
mod random;
mod server;
mod slow_clients;
mod streams;
mod transports;
