//! The reference's desk program. It stands in for the product's one, to try the
//! comparisons themselves, also with a fault: STANDIN_FAULT names it.

use std::io::{Read, Write};

use outside_tests::reference::desk::{transcript_with, Fault};

fn main() {
    let mut input = Vec::new();
    let _ = std::io::stdin().read_to_end(&mut input);
    let fault = std::env::var("STANDIN_FAULT").unwrap_or_default();
    let mut within = Fault::None;
    match fault.as_str() {
        "" => {}
        // A last line without its newline is taken.
        "desk-unended" => {
            if input.last().is_some_and(|&b| b != 10) {
                input.push(10);
            }
        }
        "desk-return" => input.retain(|&b| b != 13),
        "desk-limit" => input.truncate(65_536),
        "desk-short-limit" if input.len() > 65_535 => input = vec![0],
        "desk-short-limit" => {}
        "desk-nul" => input = input.split(|&b| b == 0).next().unwrap().to_vec(),
        "desk-empty-line" => {
            input = input.split_inclusive(|&b| b == 10).filter(|l| *l != b"\n").collect::<Vec<_>>().concat()
        }
        "desk-last-answer" => {}
        "desk-elements" => within = Fault::Elements,
        "desk-size" => within = Fault::Size,
        "desk-ends" => within = Fault::Ends,
        "desk-uncounted" => within = Fault::Uncounted,
        _ => panic!("unknown fault {fault}"),
    }
    let mut output = transcript_with(within, &input);
    if fault == "desk-last-answer" {
        output.pop();
    }
    std::io::stdout().write_all(&output).unwrap();
}
