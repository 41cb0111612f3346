//! The colours of a picture, for paper that is light and for a screen that is dark.
//!
//! No variables of CSS are used, since not every program that shows SVG knows them. Words that stand
//! on lines have a rim of the colour behind them, where the program can draw it below the letters.

use std::fmt::Write;

/// A colour a server, on light ground and on dark: as many as a pile has records. None is red,
/// which is kept for what contradicts. On its ground each has a contrast of 4.8 or more. The fourth
/// differs from the first in how light it is, too, for eyes that see no red. Whoever sees no colours
/// goes by the letters.
const SERVERS: [(&str, &str); 16] = [
    ("#1457a3", "#63a4ee"),
    ("#a35714", "#eea463"),
    ("#107f47", "#63eea8"),
    ("#3c0a6b", "#e2c2ff"),
    ("#117c8d", "#63dbee"),
    ("#887011", "#eed263"),
    ("#a31487", "#ee63d2"),
    ("#477f10", "#a8ee63"),
    ("#3644a1", "#98a2e1"),
    ("#8e6b2f", "#e1c698"),
    ("#2a7e6d", "#98e1d3"),
    ("#9236a1", "#d798e1"),
    ("#337799", "#98c9e1"),
    ("#707326", "#dfe198"),
    ("#a1366f", "#e198bf"),
    ("#2b822b", "#98e198"),
];

/// Everything but colours.
const SHAPES: &str = "\
text { font-family: 'DejaVu Sans', Verdana, sans-serif; font-size: 12px; }
.mono { font-family: 'DejaVu Sans Mono', Menlo, Consolas, monospace; font-size: 11px; }
.small { font-size: 10px; }
.heading { font-size: 16px; font-weight: bold; }
.number { font-size: 11px; font-weight: bold; }
.guide { stroke-width: 1.5; stroke-dasharray: 4 3; }
.apart { stroke-width: 2.5; }
.link { stroke-width: 3; }
.unlinked { stroke-width: 1.5; stroke-dasharray: 2 4; }
.hollow { fill: none; stroke-width: 1.5; stroke-dasharray: 3 2; }
.gap { fill-opacity: 0.1; }
.told, .banded { stroke-width: 0; }
@supports (paint-order: stroke) {
.told, .banded { paint-order: stroke; stroke-width: 4; stroke-linejoin: round; }
}
";

/// The colours of one ground.
struct Ground {
    paper: &'static str,
    ink: &'static str,
    faint: &'static str,
    grid: &'static str,
    band: &'static str,
    red: &'static str,
}

const LIGHT: Ground = Ground {
    paper: "#ffffff",
    ink: "#1f2328",
    faint: "#59636e",
    grid: "#d1d9e0",
    band: "#fff1e5",
    red: "#c4161c",
};

const DARK: Ground = Ground {
    paper: "#0d1117",
    ink: "#e6edf3",
    faint: "#9198a1",
    grid: "#30363d",
    band: "#3a2113",
    red: "#ff7b72",
};

/// The style of a picture with so many servers.
pub(super) fn sheet(servers: usize) -> String {
    let light = rules(&LIGHT, SERVERS.iter().take(servers).map(|both| both.0));
    let dark = rules(&DARK, SERVERS.iter().take(servers).map(|both| both.1));
    format!("{SHAPES}{light}@media (prefers-color-scheme: dark) {{\n{dark}}}\n")
}

fn rules<'a>(ground: &Ground, servers: impl Iterator<Item = &'a str>) -> String {
    let Ground { paper, ink, faint, grid, band, red } = ground;
    let mut rules = format!(
        "\
.paper, .number {{ fill: {paper}; }}
.ink {{ fill: {ink}; }}
.faint, .gap {{ fill: {faint}; }}
.grid {{ stroke: {grid}; }}
.scale, .link {{ stroke: {faint}; }}
.band {{ fill: {band}; }}
.told {{ stroke: {paper}; }}
.banded {{ stroke: {band}; }}
.red {{ fill: {red}; }}
.guide, .apart, .unlinked {{ stroke: {red}; }}
.hollow {{ stroke: {faint}; }}
"
    );
    for (server, colour) in servers.enumerate() {
        writeln!(rules, ".s{server} {{ fill: {colour}; }}")
            .expect("a String takes all that is written");
    }
    rules
}
