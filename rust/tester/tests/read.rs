//! Reading, compared with the reference.

use reference::layout::HEAD;
use reference::limits::MOST_CHECKS;
use reference::message::{encode, fields, slots};
use reference::random::Random;
use reference::Layout;
use tester::damage::{self, any_fields, flip, some_bytes};
use tester::{agree_in_rooms, agree_on_the_least, agree_read, rooms, Read};

/// Every legal (l1, l2, nc) with no check, one, as many as there can be, and more checks than chunks: the
/// message of a row is read back as the row's sums and checks.
#[test]
fn messages_of_rows() {
    let mut random = Random::new(11);
    for base in Layout::every_legal() {
        for r in [0, 1, MOST_CHECKS, (base.chunks() + 1).min(MOST_CHECKS)] {
            let layout = Layout { r, ..base };
            let values = fields(&layout, &random.bits(layout.row_bits()));
            assert_eq!(agree_read(&encode(&layout, &values), layout.fields()), Ok((layout, values)));
        }
    }
}

/// Messages with any numbers that fit, also the greatest ones, and targets of all kinds.
#[test]
fn any_numbers_and_targets() {
    let mut random = Random::new(12);
    for layout in Layout::every_legal_with_checks(&mut random) {
        let greatest: Vec<u16> = slots(&layout).iter().map(|slot| slot.most as u16).collect();
        for values in [any_fields(&layout, &mut random), greatest] {
            let message = encode(&layout, &values);
            agree_in_rooms(&Read { message: &message }, layout.fields());
        }
    }
}

/// Every length from none to two bytes too many: the end is cut off, or zeros or other bytes follow.
#[test]
fn every_length() {
    let mut random = Random::new(13);
    for layout in Layout::every_legal_with_checks(&mut random) {
        let message = encode(&layout, &any_fields(&layout, &mut random));
        for length in 0..=message.len() + 2 {
            for filler in [0, 0xFF] {
                let mut damaged = message.clone();
                damaged.resize(length, filler);
                let due = if length < HEAD { Err(1) } else { Err(4) };
                let room = if length % 2 == 0 { 0 } else { layout.fields() };
                if length != message.len() {
                    assert_eq!(agree_read(&damaged, room), due);
                } else {
                    assert!(agree_read(&damaged, layout.fields()).is_ok());
                }
            }
        }
    }
}

/// Each byte of the head takes every other value.
#[test]
fn every_head_byte() {
    let mut random = Random::new(14);
    let chosen = Layout::every_legal_with_checks(&mut random).into_iter().step_by(37);
    for layout in chosen {
        let message = encode(&layout, &any_fields(&layout, &mut random));
        for place in 0..HEAD {
            for change in 1..=0xFF {
                let mut damaged = message.clone();
                damaged[place] ^= change;
                let read = agree_read(&damaged, layout.fields());
                assert!(place >= 3 || read == Err(1));
                assert!(!(3..5).contains(&place) || read == Err(2));
                agree_read(&damaged, 0).expect_err("there is no room");
            }
        }
    }
}

/// Each byte of the head of every layout's message has one bit changed.
#[test]
fn a_bit_of_the_head() {
    let mut random = Random::new(15);
    for layout in Layout::every_legal_with_checks(&mut random) {
        let message = encode(&layout, &any_fields(&layout, &mut random));
        for place in 0..8 * HEAD {
            let mut damaged = message.clone();
            flip(&mut damaged, place);
            assert!(agree_read(&damaged, 300).is_err() || place >= 40);
        }
    }
}

/// All pairs of l1 and l2 with nc and r inside and outside their bounds, in a message of the head alone: 3 for
/// a layout that is not legal, 4 for one that is.
#[test]
fn every_layout_in_the_head() {
    for l1 in 0..=255 {
        for l2 in 0..=255 {
            for nc in [0, 2, 3, 4, 5, 6, 7, 8, 9, 255] {
                let r = [0, 16, 17, 255][usize::from(l1 ^ l2 ^ nc) % 4];
                let read = agree_read(&[0x52, 0x53, 0x4D, 0x00, 0x01, l1, l2, nc, r], 0);
                let layout = Layout::new(l1.into(), l2.into(), nc.into(), r.into());
                assert_eq!(read, Err(if layout.is_legal() { 4 } else { 3 }));
            }
        }
    }
}

/// Each sum in turn is one above the length of its string, or all ones, where its bits can spell that. A spare
/// bit or a short target beside it changes nothing.
#[test]
fn sums_above_their_limit() {
    let mut random = Random::new(16);
    let mut refused = 0;
    for layout in Layout::every_legal_with_checks(&mut random) {
        let values = any_fields(&layout, &mut random);
        for (place, slot) in slots(&layout).into_iter().enumerate().take(layout.l1 + layout.l2) {
            for value in [slot.most + 1, (1 << slot.width) - 1] {
                if value <= slot.most || value >> slot.width != 0 {
                    continue;
                }
                let mut damaged = values.clone();
                damaged[place] = value as u16;
                let mut message = encode(&layout, &damaged);
                let room = if place % 2 == 0 { layout.fields() } else { 0 };
                assert_eq!(agree_read(&message, room), Err(5));
                if layout.field_bits() % 8 != 0 {
                    *message.last_mut().expect("a message is not empty") |= 1;
                    assert_eq!(agree_read(&message, room), Err(5));
                }
                refused += 1;
            }
        }
    }
    assert!(refused > 10_000);
}

/// Each spare bit of the message in turn is 1.
#[test]
fn spare_bits_of_the_message() {
    let mut random = Random::new(17);
    for layout in Layout::every_legal_with_checks(&mut random) {
        let message = encode(&layout, &any_fields(&layout, &mut random));
        for place in layout.field_bits()..8 * (message.len() - HEAD) {
            let mut damaged = message.clone();
            flip(&mut damaged[HEAD..], place);
            for room in [0, layout.fields()] {
                assert_eq!(agree_read(&damaged, room), Err(6));
            }
        }
    }
}

/// Bodies of any bytes behind a right head, and messages with a few bits changed anywhere.
#[test]
fn any_damage() {
    let mut random = Random::new(18);
    for _ in 0..8 {
        for layout in Layout::every_legal_with_checks(&mut random) {
            let mut message = encode(&layout, &any_fields(&layout, &mut random));
            if random.below(2) == 0 {
                message[HEAD..].iter_mut().for_each(|byte| *byte = random.number() as u8);
            } else {
                for _ in 0..=random.below(3) {
                    let place = random.below(8 * message.len());
                    flip(&mut message, place);
                }
            }
            let room = rooms(layout.fields())[random.below(6)];
            let _ = agree_read(&message, room);
        }
    }
}

/// Any bytes at all, and any bytes behind a mark and a version.
#[test]
fn any_bytes() {
    let mut random = Random::new(19);
    for round in 0..20_000 {
        let bytes = some_bytes(160, round % 2 == 0, &mut random);
        let _ = agree_read(&bytes, random.below(300));
    }
}

/// Every set of faults: the least number is answered.
#[test]
fn the_least_number_of_every_set_of_faults() {
    let message = encode(&damage::LAYOUT, &fields(&damage::LAYOUT, &[true; 16]));
    let spoil = |(message, room): &mut (Vec<u8>, usize), number, way| match number {
        10 => *room = [0, *room - 1][way],
        _ => damage::spoil(message, number, way),
    };
    let fit = (message, damage::LAYOUT.fields());
    agree_on_the_least(&[1, 2, 3, 4, 5, 6, 10], &fit, spoil, |(message, room)| agree_read(message, *room).err());
}

/// The wrapper's greatest number of fields is enough for every layout, and no more than need be.
#[test]
fn the_most_fields() {
    let most = Layout::every_legal().into_iter().map(|base| Layout { r: MOST_CHECKS, ..base }.fields()).max();
    assert_eq!(most, Some(dairyhour::MOST_FIELDS));
}
