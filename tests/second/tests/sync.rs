//! Hunts, frames, and what is printed of whole captures.

mod common;

use common::{first_worked, refusal, WORKED};
use second::listing::listing;
use second::refusal::Refusal;
use second::summary::summary;
use second::sync::{hunt, write_frame, Frame};

const NONE: Result<Frame, Refusal> = Err(Refusal {
    number: 20,
    place: 0,
    fields: 0,
});

fn found(place: usize, length: usize) -> Result<Frame, Refusal> {
    Ok(Frame { place, length })
}

#[test]
fn the_worked_capture() {
    assert_eq!(hunt(&WORKED, 0), found(0, 9));
    assert_eq!(hunt(&WORKED, 1), found(12, 2));
    assert_eq!(hunt(&WORKED, 12), found(12, 2));
    assert_eq!(hunt(&WORKED, 13), NONE);
    assert_eq!(hunt(&WORKED, 17), NONE);
    assert_eq!(hunt(&WORKED, usize::MAX), NONE);
    assert_eq!(found(0, 9).unwrap().element(&WORKED), first_worked());
}

#[test]
fn no_frame() {
    assert_eq!(hunt(&[], 0), NONE);
    assert_eq!(hunt(&[0x56], 0), NONE);
    assert_eq!(hunt(&[0x56, 0xE0, 0x00], 0), NONE);
    assert_eq!(hunt(&[0x56, 0xE0, 0x01], 0), NONE);
    assert_eq!(hunt(&[0x56, 0xE0, 0x01, 0x00], 0), found(0, 1));
}

#[test]
fn each_bit_of_the_sync_counts() {
    for place in 0..11 {
        let mut frame = [0x56, 0xE0, 0x01, 0x00];
        frame[place / 8] ^= 0x80 >> (place % 8);
        assert_eq!(hunt(&frame, 0), NONE);
    }
}

#[test]
fn what_follows_must_be_a_sync_or_the_end() {
    let frame = [0x56, 0xE0, 0x01, 0x00];
    for (after, stands) in [
        (&[][..], true),
        (&[0x56][..], false),
        (&[0x56, 0xE0][..], true),
        (&[0x56, 0xFF][..], true),
        (&[0x56, 0xC0][..], false),
        (&[0x57, 0xE0][..], false),
        (&[0x00][..], false),
    ] {
        let capture = [&frame, after].concat();
        let expected = if stands { found(0, 1) } else { NONE };
        assert_eq!(hunt(&capture, 0), expected, "{after:?}");
    }
}

#[test]
fn a_frame_that_passes_the_end() {
    assert_eq!(hunt(&[0x56, 0xE0, 0x02, 0x00], 0), NONE);
    assert_eq!(
        hunt(&[0x56, 0xE0, 0x05, 0x56, 0xE0, 0x01, 0x00], 0),
        found(3, 1)
    );
}

#[test]
fn the_longest_frame_and_capture() {
    let mut capture = vec![0; 65536];
    capture[65536 - 8194..][..3].copy_from_slice(&[0x56, 0xFF, 0xFF]);
    assert_eq!(hunt(&capture, 0), found(65536 - 8194, 8191));
    capture.insert(0, 0);
    assert_eq!(hunt(&capture, 0), NONE);
    assert_eq!(hunt(&capture, 65537 - 8194), NONE);
}

#[test]
fn frames_are_written() {
    let mut output = [0x5A; 6];
    assert_eq!(write_frame(&[7, 8], &mut output), Ok(5));
    assert_eq!(output, [0x56, 0xE0, 2, 7, 8, 0x5A]);
    let mut output = vec![0x5A; 8200];
    assert_eq!(write_frame(&[7; 8191], &mut output), Ok(8194));
    assert_eq!(output[..4], [0x56, 0xFF, 0xFF, 7]);
    assert_eq!(output[8193..8195], [7, 0x5A]);
}

#[test]
fn frames_are_refused() {
    for (element, room, number) in [
        (0, 10, 2),
        (0, 0, 2),
        (8192, 9000, 2),
        (8192, 0, 2),
        (1, 3, 19),
        (8191, 8193, 19),
    ] {
        let mut output = vec![0x5A; room];
        assert_eq!(
            write_frame(&vec![1; element], &mut output),
            Err(refusal(number, 0, 0))
        );
        assert!(output.iter().all(|byte| *byte == 0x5A));
    }
}

const HEADER: &str = "element  program  layer  stream  core type    core Hz  output Hz  \
                      SBR            PS             output channels\n";

#[test]
fn a_capture_without_frames() {
    assert_eq!(listing(&[1, 2, 3]), "");
    assert_eq!(
        summary(&[], false),
        format!("{HEADER}no frame in this capture (refusal 20)\n")
    );
    let longer = "the capture is longer than 65536 bytes: only the first 65536 were read\n";
    let expected = format!("{HEADER}no frame in this capture (refusal 20)\n{longer}");
    assert_eq!(summary(&[0; 65536], true), expected);
}

#[test]
fn refused_elements_are_counted_and_change_nothing() {
    let unheld = [0x56, 0xE0, 0x02, 0x80, 0x00];
    let capture = [
        &unheld,
        &unheld,
        &WORKED[..12],
        &WORKED[..12],
        &[0x56, 0xE0, 1, 0x20],
        &unheld,
    ]
    .concat();
    let expected = format!(
        "{HEADER}no configuration yet: elements cannot be read until one is sent
      0  refused  4  at bit     0  fields read     1  the held configuration is to apply, and none is held
      1  refused  4  at bit     0  fields read     1  the held configuration is to apply, and none is held
      2        0      0       0  2 AAC LC       48000      48000  not signalled  not signalled                2
      4  refused  3  at bit     3  fields read     3  the element ends before this field, \
         fill, payload or other data does
"
    );
    assert_eq!(summary(&capture, false), expected);
    let listing = listing(&capture);
    let lines: Vec<&str> = listing.lines().collect();
    assert_eq!(
        lines[..2],
        ["000000 X 04 00000 00001", "000001 X 04 00000 00001"]
    );
    assert_eq!(lines[12], "000004 X 03 00003 00003");
    assert_eq!(lines[13], "000005 U 00 00000 00001");
    assert_eq!(lines.len(), 17);
}
