//! How cost grows: of a replay with the records, of REVOKE and the census with
//! the live places and with the depth.

use std::fs;
use std::io;

use crate::call::Cell;
use crate::calls::{self, measured_section, Measured, Section};
use crate::journals::steady;
use crate::markdown::{grouped, line};
use crate::plot::{svg, Line, Panel};
use crate::replay::{self, replayed, Replayed};

/// The plot, from the root of the repository.
const PLOT: &str = "docs/benchmark.svg";

const SIZES: [usize; 4] = [1_000, 10_000, 100_000, 1_000_000];

const COLOURS: [&str; 3] = ["#b3420f", "#6b6b6b", "#1a5fb4"];

/// Measures and prints the section of the document, and writes its plot.
pub fn measure(rounds: u32) -> io::Result<()> {
    line("## How cost grows");
    let journal = |records: usize| {
        // Long journals have fewer rounds, so that each size takes about as long.
        let most = (2_000_000 / records) as u32;
        let rounds = rounds.min(most.max(3));
        replayed(grouped(records as u64), records, &steady(records), rounds)
    };
    let journals: Vec<Replayed> = SIZES.into_iter().map(journal).collect::<io::Result<_>>()?;
    replay::print("records", &journals);
    let live = measured_section(Section::Live, rounds)?;
    line("REVOKE and the census by live places:");
    calls::print(Section::Live, &live);
    let depth = measured_section(Section::Depth, rounds)?;
    line("REVOKE and the census by depth:");
    calls::print(Section::Depth, &depth);
    let panels = [
        by_records(&journals),
        of_calls(&live, "REVOKE and census by live places", "live places"),
        of_calls(
            &depth,
            "REVOKE and census by depth, all places live",
            "depth",
        ),
    ];
    fs::write(PLOT, svg(&panels))
}

fn by_records(journals: &[Replayed]) -> Panel {
    let names = ["model", "model without test", "proved"];
    let line = |side: usize| Line {
        name: names[side].to_string(),
        colour: COLOURS[side],
        dashed: false,
        points: journals
            .iter()
            .map(|one| {
                let records = one.records as f64;
                (records, one.instructions[side] as f64 / records / 1e3)
            })
            .collect(),
    };
    Panel {
        title: "Replay of a steady journal".to_string(),
        across: "records".to_string(),
        up: "thousand instructions a record".to_string(),
        logarithmic: true,
        lines: (0..names.len()).map(line).collect(),
    }
}

fn of_calls(all: &[Measured], title: &str, across: &str) -> Panel {
    let mut lines = Vec::new();
    for (call, dashed) in [("REVOKE", false), ("census", true)] {
        for (side, name, colour) in [(0, "model", COLOURS[0]), (1, "proved", COLOURS[2])] {
            let points = all.iter().filter_map(|one| match one.columns[..] {
                [Cell::Text(name), Cell::Number(at), ..] if name == call => {
                    Some((at as f64, one.instructions[side] as f64 / 1e3))
                }
                _ => None,
            });
            lines.push(Line {
                name: format!("{call}, {name}"),
                colour,
                dashed,
                points: points.collect(),
            });
        }
    }
    Panel {
        title: title.to_string(),
        across: across.to_string(),
        up: "thousand instructions a call".to_string(),
        logarithmic: false,
        lines,
    }
}
