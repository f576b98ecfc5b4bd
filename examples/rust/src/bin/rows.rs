//! Prints a line for each stream of a capture, whenever an element changes the configuration that is held.
use schilfauge::{hunt, Held, CAPTURE_BYTES, MAP_WORDS};
use std::io::Read;

const TYPES: [&str; 5] = ["?", "1 AAC Main", "2 AAC LC", "3 AAC SSR", "4 AAC LTP"];

fn flag(value: Option<bool>) -> &'static str {
    match value {
        None => "not signalled",
        Some(false) => "no",
        Some(true) => "yes",
    }
}

fn print_rows(element: usize, held: &Held) {
    for (program, layer) in (0..16).flat_map(|p| (0..8).map(move |l| (p, l))) {
        let Some(row) = held.row(program, layer) else {
            continue;
        };
        println!(
            "{element:7}  {program:7}  {layer:5}  {:6}  {:10}  {:8}  {:9}  {:13}  {:13}  {:15}",
            row.stream,
            TYPES.get(row.core as usize).unwrap_or(&TYPES[0]),
            row.rate,
            row.output,
            flag(row.sbr),
            flag(row.ps),
            row.channels
        );
    }
}

fn main() -> std::io::Result<()> {
    let Some(path) = std::env::args().nth(1) else {
        eprintln!("usage: rows CAPTURE");
        std::process::exit(2);
    };
    let mut capture = Vec::new();
    std::fs::File::open(path)?
        .take(CAPTURE_BYTES as u64 + 1)
        .read_to_end(&mut capture)?;
    if capture.len() > CAPTURE_BYTES {
        eprintln!("only the first {CAPTURE_BYTES} bytes of the capture are read");
        capture.truncate(CAPTURE_BYTES);
    }

    println!(
        "element  program  layer  stream  core type    core Hz  output Hz  \
         SBR            PS             output channels"
    );
    let (mut held, mut map, mut at, mut number) = (Held::nothing(), vec![0; MAP_WORDS], 0, 0);
    while let Some((element, end)) = hunt(&capture, at) {
        let before = held.clone();
        // A refused element changes nothing that is held, so its rows stand.
        let _ = held.read(element, &mut map);
        if held != before {
            print_rows(number, &held);
        }
        (at, number) = (end, number + 1);
    }
    Ok(())
}
