//! What the command line says of a server that is to be started.

use crate::clock::Source;
use crate::grease::{Form, Greasing};
use crate::serve::Served;
use crate::stop::{usage, Stop};
use crate::tcp::Limits;
use crate::timekeeper::Policy;
use crate::words::Words;
use std::ffi::OsStr;
use std::net::{Ipv4Addr, Ipv6Addr, SocketAddr};
use std::path::PathBuf;
use std::thread;
use std::time::Duration;

/// The port that servers use until IANA names one.
const PORT: u16 = 2002;

fn address(word: &OsStr) -> Result<SocketAddr, Stop> {
    let shown = word.to_string_lossy();
    let parsed = shown.parse();
    parsed.or_else(|_| {
        usage(format!(
            "--listen takes an address and a port, as 192.0.2.1:{PORT} or [2001:db8::1]:{PORT}, \
             and not '{}'",
            shown.escape_debug()
        ))
    })
}

fn limits(words: &Words) -> Result<Option<Limits>, Stop> {
    let connections = words.number("--tcp-connections", 1, 1_000_000)?.unwrap_or(500);
    let idle = words.number("--tcp-idle", 1, 3600)?.unwrap_or(10);
    let bytes = words.number("--tcp-bytes", 2000, u64::MAX)?.unwrap_or(1 << 20);
    let connections = usize::try_from(connections).unwrap_or(usize::MAX);
    let limits = Limits { connections, idle: Duration::from_secs(idle), bytes };
    Ok((!words.has("--no-tcp")).then_some(limits))
}

fn policy(words: &Words) -> Result<Policy, Stop> {
    let most = u64::from(u32::MAX);
    let radius = words.number("--radius", 1, most)?;
    let margin = words.number("--margin", 0, 3600)?;
    if radius.is_some() && margin.is_some() {
        return usage("--radius says all of the radius, and --margin a part; give one of them");
    }
    let number = |number: u64| u32::try_from(number).unwrap_or(u32::MAX);
    let turned = words.value("--test-clock").map(|file| Source::Turned(PathBuf::from(file)));
    Ok(Policy {
        source: turned.unwrap_or(Source::System),
        trust: words.has("--trust-clock"),
        radius: radius.map(number),
        margin: number(margin.unwrap_or(1)),
    })
}

fn form(word: &OsStr) -> Result<Form, Stop> {
    let known = word.to_str().and_then(Form::named);
    known.map_or_else(
        || {
            usage(format!(
                "--grease-form takes {}, and not '{}'",
                Form::ALL.map(|(name, _)| name).join(", "),
                word.to_string_lossy().escape_debug()
            ))
        },
        Ok,
    )
}

/// How often an answer is spoilt, and how: without a word of it, in each way in turn.
fn greasing(words: &Words) -> Result<Option<Greasing>, Stop> {
    let mut forms = words.values("--grease-form").map(form).collect::<Result<Vec<_>, Stop>>()?;
    match words.number("--grease", 1, u64::MAX)? {
        None if !forms.is_empty() => usage("--grease-form goes with --grease"),
        None => Ok(None),
        Some(among) => {
            if forms.is_empty() {
                forms.extend(Form::ALL.map(|(_, form)| form));
            }
            Ok(Some(Greasing { among, forms }))
        }
    }
}

pub fn served(words: &Words) -> Result<Served, Stop> {
    let [delegation] = &words.words[..] else {
        return usage("one file is wanted, a delegation; 'trawld --help' says how it is made");
    };
    let mut listen = words.values("--listen").map(address).collect::<Result<Vec<_>, Stop>>()?;
    let any = listen.is_empty();
    if any {
        listen.push(SocketAddr::from((Ipv4Addr::UNSPECIFIED, PORT)));
        listen.push(SocketAddr::from((Ipv6Addr::UNSPECIFIED, PORT)));
    }
    let processors = thread::available_parallelism().map_or(1, |number| number.get() as u64);
    let sockets = words.number("--sockets", 1, 1024)?.unwrap_or(processors);
    let every = words.number("--line", 1, 86_400)?.unwrap_or(60);
    Ok(Served {
        delegation: PathBuf::from(delegation),
        listen,
        any,
        sockets: usize::try_from(sockets).unwrap_or(1),
        tcp: limits(words)?,
        policy: policy(words)?,
        grease: greasing(words)?,
        metrics: words.value("--metrics").map(PathBuf::from),
        every: Duration::from_secs(every),
    })
}
