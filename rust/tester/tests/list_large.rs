//! Listing under large layouts, whose rows cannot all be tried: what the definition says of every list, and the list that the
//! source's steps give.

use reference::bits::{bytes_for, pack, unpack};
use reference::limits::{LONGEST_LIST, MOST_CHECKS};
use reference::list::{judge_by, question, Judged};
use reference::random::Random;
use reference::samples::{lose, row, Kind, Losses};
use reference::steps::by_steps;
use reference::Layout;
use tester::{agree_list, Message, Received};

/// "With none or one deleted it holds at most one row": under every legal layout the row itself, beside its message.
#[test]
fn none_or_one_lost_gives_the_row() {
    let mut random = Random::new(91);
    for layout in Layout::every_legal_with_checks(&mut random) {
        let kind = Kind::ALL[random.below(Kind::ALL.len())];
        let sent = row(kind, layout.row_bits(), &mut random);
        let judged = Judged { rows: Ok(vec![pack(&sent)]) };
        for k in [0, 1] {
            let losses = Losses::ALL[random.below(Losses::ALL.len())];
            let received = Received::own(&layout, &sent, &lose(losses, &layout, &sent, k, &mut random));
            assert_eq!(agree_list(&received, &judged, bytes_for(layout.row_bits())), Ok(1));
        }
    }
}

/// With no bit lost and another row's message there is no row.
#[test]
fn another_rows_message() {
    let mut random = Random::new(92);
    for layout in Layout::every_legal_with_checks(&mut random) {
        let sent = random.bits(layout.row_bits());
        let mut other = sent.clone();
        let place = random.below(other.len());
        other[place] = !other[place];
        let received = Received::own(&layout, &other, &sent);
        assert_eq!(agree_list(&received, &Judged { rows: Ok(Vec::new()) }, 300), Ok(0));
    }
}

/// "The row is listed whenever the list fits its slice", each row once and in order, and each is consistent.
#[test]
fn the_row_is_listed() {
    let mut random = Random::new(93);
    for layout in Layout::every_legal().into_iter().step_by(5) {
        let layout = Layout { r: 4 + random.below(MOST_CHECKS - 3), ..layout };
        let kind = [Kind::Random, Kind::Film, Kind::Tracks(4)][random.below(3)];
        let sent = row(kind, layout.row_bits(), &mut random);
        let losses = Losses::ALL[random.below(Losses::ALL.len())];
        let received = Received::own(&layout, &sent, &lose(losses, &layout, &sent, 2, &mut random));
        let mut out = vec![0; LONGEST_LIST];
        let count = dairyhour::list(&received.message, &received.row, received.m, &mut out);
        let count = count.unwrap_or_else(|refusal| panic!("{received}: {refusal}"));
        let rows: Vec<&[u8]> = out.chunks(bytes_for(layout.row_bits())).take(count).collect();
        assert!(rows.contains(&&pack(&sent)[..]), "{received}");
        assert!(rows.windows(2).all(|pair| pair[0] < pair[1]), "{received}");
        let question = question(&received.message, &received.row, received.m).expect("a fit question");
        assert!(rows.iter().all(|row| question.is_consistent(&unpack(row, layout.row_bits()))), "{received}");
    }
}

/// The layouts that are timed, with up to four losses, beside the source's steps.
#[test]
fn as_the_steps_list() {
    let mut seed = 10_000_000;
    for (l1, l2, nc, r) in [(5, 3, 4, 4), (9, 7, 6, 7), (10, 6, 6, 4), (15, 17, 8, 16), (17, 15, 8, 8)] {
        let layout = Layout::new(l1, l2, nc, r);
        for kind in [Kind::Random, Kind::Film, Kind::Stripes(7)] {
            for losses in Losses::ALL {
                for k in 0..=4 {
                    for message in [Message::Own, Message::Near] {
                        let received = Received::sample(&layout, kind, losses, k, message, seed);
                        let judged = judge_by(by_steps, &received.message, &received.row, received.m);
                        let _ = agree_list(&received, &judged, 4096);
                        seed += 1;
                    }
                }
            }
        }
    }
}
