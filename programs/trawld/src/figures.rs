//! What was counted, as a line and in the text form of Prometheus.

use crate::counts::Sum;
use crate::date::date;

/// What was counted since `before`, in a line that begins with the second.
pub fn line(second: u64, now: &Sum, before: &Sum) -> String {
    let codes: Vec<String> = (1..now.refused.len())
        .map(|code| (code, now.refused[code] - before.refused[code]))
        .filter(|(_, count)| *count > 0)
        .map(|(code, count)| format!("code {code}: {count}"))
        .collect();
    let refused: u64 = now.refused.iter().sum::<u64>() - before.refused.iter().sum::<u64>();
    let codes = if codes.is_empty() { String::new() } else { format!(" ({})", codes.join(", ")) };
    format!(
        "{} asked {} answered {} refused {refused}{codes} elsewhere {} short {} silent {} \
         dropped {} unsent {} greased {} signatures {} connections {}",
        date(second),
        now.asked - before.asked,
        now.answered - before.answered,
        now.elsewhere - before.elsewhere,
        now.short - before.short,
        now.silent - before.silent,
        now.dropped.saturating_sub(before.dropped),
        now.unsent - before.unsent,
        now.greased - before.greased,
        now.batches - before.batches,
        now.open
    )
}

/// What else is told of a server.
#[derive(Clone, Copy, Debug)]
pub struct State {
    pub maxt: u64,
    /// The radius that is signed, or none where it is silent.
    pub radi: Option<u32>,
}

/// All that was counted of UDP and of TCP, as Prometheus reads it.
pub fn metrics(udp: &Sum, tcp: &Sum, state: State) -> String {
    let mut text = String::new();
    let mut tell = |name: &str, kind: &str, what: &str, values: &[(String, u64)]| {
        text += &format!("# HELP trawld_{name} {what}\n# TYPE trawld_{name} {kind}\n");
        for (labels, value) in values {
            text += &format!("trawld_{name}{labels} {value}\n");
        }
    };
    let both = |of: fn(&Sum) -> u64| {
        vec![
            ("{transport=\"udp\"}".to_string(), of(udp)),
            ("{transport=\"tcp\"}".to_string(), of(tcp)),
        ]
    };
    tell("asked_total", "counter", "Packets that came.", &both(|sum| sum.asked));
    tell("answered_total", "counter", "Answers that were sent.", &both(|sum| sum.answered));
    let refused = |name: &str, sum: &Sum| -> Vec<(String, u64)> {
        let label = |code: usize| format!("{{transport=\"{name}\",code=\"{code}\"}}");
        (1..sum.refused.len()).map(|code| (label(code), sum.refused[code])).collect()
    };
    let codes = [refused("udp", udp), refused("tcp", tcp)].concat();
    tell("refused_total", "counter", "Packets that are no request, by the code.", &codes);
    let elsewhere = both(|sum| sum.elsewhere);
    tell("elsewhere_total", "counter", "Good requests to another server.", &elsewhere);
    tell("short_total", "counter", "Requests shorter than their answer.", &both(|sum| sum.short));
    let silent = both(|sum| sum.silent);
    tell("silent_total", "counter", "Packets while no time could be signed.", &silent);
    tell("unsent_total", "counter", "Answers the system did not take.", &both(|sum| sum.unsent));
    tell("greased_total", "counter", "Answers spoilt on purpose.", &both(|sum| sum.greased));
    tell("signatures_total", "counter", "Signatures of a batch.", &both(|sum| sum.batches));
    let plain = |value| [(String::new(), value)];
    tell("dropped_total", "counter", "Packets the system dropped.", &plain(udp.dropped));
    tell("connections_total", "counter", "TCP connections taken.", &plain(tcp.taken));
    tell("connections", "gauge", "TCP connections that are open.", &plain(tcp.open));
    let why = |why: &str, value| (format!("{{why=\"{why}\"}}"), value);
    let closed = [
        why("crowded", tcp.crowded),
        why("late", tcp.late),
        why("long", tcp.long),
        why("broken", tcp.broken),
    ];
    tell("closed_total", "counter", "TCP connections the server closed.", &closed);
    tell("maxt_seconds", "gauge", "The delegation's last second.", &plain(state.maxt));
    let radi = u64::from(state.radi.unwrap_or(0));
    tell("radius_seconds", "gauge", "The radius, or 0 where it is silent.", &plain(radi));
    text
}

#[cfg(test)]
mod tests {
    use super::*;

    #[test]
    fn a_line_tells_what_came_since_the_last() {
        let before = Sum { asked: 5, answered: 5, ..Sum::default() };
        let mut now = Sum { asked: 9, answered: 6, elsewhere: 1, ..before };
        now.refused[3] = 2;
        assert_eq!(
            line(0, &now, &before),
            "1970-01-01T00:00:00Z asked 4 answered 1 refused 2 (code 3: 2) elsewhere 1 short 0 \
             silent 0 dropped 0 unsent 0 greased 0 signatures 0 connections 0"
        );
    }

    #[test]
    fn each_name_has_its_kind_before_its_values() {
        let text = metrics(&Sum::default(), &Sum::default(), State { maxt: 7, radi: None });
        let mut kind = "";
        for line in text.lines() {
            match line.strip_prefix("# TYPE ") {
                Some(typed) => kind = typed.split(' ').next().unwrap(),
                None if line.starts_with("# HELP ") => {}
                None => assert!(line.starts_with(kind) && !kind.is_empty(), "{line}"),
            }
        }
        assert!(text.contains("\ntrawld_maxt_seconds 7\n"));
    }
}
