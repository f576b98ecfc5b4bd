//! The maker of cases against the reader: it knows what it laid out.

mod common;

use common::{meet_ps_over_each, refusal};
use second::capture::Capture;
use second::cases::{capture, counts, good, two_by_ps, Good};
use second::damage::{self, REFUSED_BY};
use second::layout::Name;
use second::random::Random;
use second::read::{read, Item, Kind, MAP_NUMBERS};
use second::record::Record;
use second::sync::LONGEST_CAPTURE;

fn expected_items(good: &Good) -> Vec<Item> {
    let record = &good.record;
    let header = good.sheet.first_bit(good.sheet.header_cells()) as u64;
    let mut parts = vec![(Kind::Flag, 0, 1), (Kind::Configuration, 0, header - 1)];
    for lengths in good.lengths.chunks(record.stream_count()) {
        let sent = record
            .streams
            .iter()
            .zip(lengths)
            .filter(|(stream, _)| stream.frame_length_type == 0);
        parts.push((
            Kind::Lengths,
            0,
            sent.map(|(_, length)| 8 * (length / 255 + 1)).sum(),
        ));
        parts.extend(
            lengths
                .iter()
                .enumerate()
                .map(|(s, length)| (Kind::Payload, s as u64, 8 * length)),
        );
    }
    if record.other_present == 1 {
        parts.push((Kind::OtherData, 0, record.other_bits));
    }
    let bits: u64 = parts.iter().map(|part| part.2).sum();
    parts.push((Kind::Alignment, 0, (8 - bits % 8) % 8));
    let mut first = 0;
    let mut items = Vec::new();
    for (kind, stream, width) in parts {
        items.push(Item {
            kind,
            stream,
            first,
            width,
        });
        first += width;
    }
    items
}

#[test]
fn good_elements_are_read_as_laid_out() {
    let mut random = Random::new(3);
    for _ in 0..1000 {
        let good = good(&mut random);
        let reading = read(&good.sheet.bytes(), None, MAP_NUMBERS).expect("a good element");
        assert_eq!(reading.held, good.record);
        assert_eq!(
            reading.fields,
            good.sheet.fields_before(good.sheet.cells.len()) as u64
        );
        assert_eq!(reading.items, expected_items(&good));
        let fields = [Kind::Flag, Kind::Configuration, Kind::Lengths];
        let bits = reading
            .items
            .iter()
            .filter(|item| fields.contains(&item.kind));
        assert!(reading.fields <= bits.map(|item| item.width).sum());
    }
}

#[test]
fn values_out_of_range_are_refused_at_their_field() {
    let mut random = Random::new(4);
    let mut met = [0; 21];
    for _ in 0..400 {
        let good = good(&mut random);
        for (name, number) in REFUSED_BY {
            let Some(spoiled) = damage::spoil(&good.sheet, name, &mut random) else {
                continue;
            };
            // Type 31 takes bits that aren't a cell of their own here.
            if number == 8 && spoiled.sheet.cells[spoiled.cell].value() == 31 {
                continue;
            }
            let place = spoiled.sheet.first_bit(spoiled.cell) as u64;
            let fields = spoiled.sheet.fields_before(spoiled.cell) as u64 + 1;
            let answer = read(&spoiled.sheet.bytes(), None, MAP_NUMBERS);
            assert_eq!(answer, Err(refusal(number, place, fields)), "{name:?}");
            met[usize::from(number)] += 1;
        }
    }
    for number in [5, 6, 7, 8, 9, 11, 12, 13, 14] {
        assert!(met[number] >= 10, "{number}");
    }
}

#[test]
fn cut_elements_are_refused_where_they_end() {
    let mut random = Random::new(5);
    for _ in 0..400 {
        let sheet = good(&mut random).sheet;
        let bytes = sheet.bytes();
        let cut = random.below(bytes.len() as u64) as usize;
        if cut == 0 {
            continue;
        }
        let mut place = 0;
        let mut cell = 0;
        while place + sheet.cells[cell].bits.len() <= 8 * cut {
            place += sheet.cells[cell].bits.len();
            cell += 1;
        }
        let expected = refusal(3, place as u64, sheet.fields_before(cell) as u64);
        assert_eq!(read(&bytes[..cut], None, MAP_NUMBERS), Err(expected));
    }
}

#[test]
fn bytes_added_are_refused() {
    let mut random = Random::new(6);
    for _ in 0..400 {
        let sheet = good(&mut random).sheet;
        let mut bytes = sheet.bytes();
        let expected = refusal(
            15,
            8 * bytes.len() as u64,
            sheet.fields_before(sheet.cells.len()) as u64,
        );
        bytes.push(0x80);
        assert_eq!(read(&bytes, None, MAP_NUMBERS), Err(expected));
    }
}

/// One bit less than the fields before the fill need.
#[test]
fn asc_len_too_short_is_refused_at_the_last_field() {
    let mut random = Random::new(7);
    let mut met = 0;
    for _ in 0..400 {
        let good = good(&mut random);
        let Some(count) = good.sheet.places(Name::AscLenCount).first().copied() else {
            continue;
        };
        let first = count + 2 + good.sheet.cells[count].value() as usize;
        let extension = (first..)
            .find(|cell| good.sheet.cells[*cell].name == Name::ExtensionFlag)
            .unwrap();
        let core: usize = (first..=extension)
            .map(|cell| good.sheet.cells[cell].bits.len())
            .sum();
        let mut sheet = good.sheet.clone();
        for (after, cell) in (count + 1..first).rev().enumerate() {
            sheet.cells[cell].set((core as u64 - 1) >> (8 * after));
        }
        let expected = refusal(
            10,
            sheet.first_bit(extension) as u64,
            sheet.fields_before(extension) as u64,
        );
        assert_eq!(read(&sheet.bytes(), None, MAP_NUMBERS), Err(expected));
        met += 1;
    }
    assert!(met > 100);
}

#[test]
fn captures_are_made_again_and_never_too_long() {
    for seed in 1..=20 {
        let bytes = capture(seed);
        assert!(bytes.len() <= LONGEST_CAPTURE);
        assert_eq!(bytes, capture(seed));
    }
}

#[test]
fn captures_meet_every_refusal() {
    let mut sums = [0; 21];
    for seed in 1..=20 {
        sums.iter_mut()
            .zip(counts(&capture(seed)))
            .for_each(|(sum, count)| *sum += count);
    }
    assert!(sums[0] >= 1000);
    for (number, sum) in sums.iter().enumerate().take(16).skip(3) {
        assert!(*sum >= 20, "refusal {number} is met {sum} times");
    }
}

#[test]
fn captures_hold_the_largest_elements() {
    let captures: Vec<Vec<u8>> = (1..=20).map(capture).collect();
    let readings = || {
        captures
            .iter()
            .flat_map(|bytes| Capture::new(bytes))
            .filter_map(|step| step.outcome.ok())
    };
    assert!(readings().any(|reading| reading.items.len() == 1092));
    let end = |items: &[Item]| items.last().map(|item| item.first + item.width);
    assert!(readings().any(|reading| end(&reading.items) == Some(8 * 8191)));
}

#[test]
fn five_captures_show_ps_over_each_configuration() {
    let captures: Vec<Vec<u8>> = (1..=5).map(capture).collect();
    let shown: Vec<Record> = captures
        .iter()
        .flat_map(|bytes| Capture::new(bytes))
        .filter(|step| step.changed)
        .filter_map(|step| step.outcome.ok())
        .map(|reading| reading.held)
        .collect();
    meet_ps_over_each(&shown);
    let rows: usize = captures.iter().map(|bytes| two_by_ps(bytes)).sum();
    assert!(rows >= 50, "{rows}");
}
