//! What the library once answered it answers for ever: messages are kept beside their films for months. The
//! files in `stored/` hold inputs and outputs in hexadecimal, and a later change must reproduce each line; lines
//! may be added, none changed.

use dairyhour::{mend, read, write, Layout, LONGEST_MESSAGE, MOST_FIELDS};
use tester::bytes;

/// The lines of a stored file that are not comments, cut into words.
fn lines(file: &str) -> Vec<Vec<&str>> {
    file.lines().filter(|line| !line.starts_with('#')).map(|line| line.split(' ').collect()).collect()
}

fn number(word: &str) -> usize {
    word.parse().expect("a number")
}

#[test]
fn messages() {
    let stored = lines(include_str!("../stored/messages.txt"));
    assert!(stored.len() >= 100);
    for words in stored {
        let layout = Layout { l1: number(words[0]), l2: number(words[1]), nc: number(words[2]), r: number(words[3]) };
        let (row, message) = (bytes(words[4]), bytes(words[5]));
        let mut target = [0; LONGEST_MESSAGE];
        assert_eq!(write(layout, &row, &mut target), Ok(message.len()), "{words:?}");
        assert_eq!(target[..message.len()], message, "{words:?}");
        assert_eq!(read(&message, &mut [0; MOST_FIELDS]), Ok(layout), "{words:?}");
    }
}

#[test]
fn mended_strings() {
    let stored = lines(include_str!("../stored/mended.txt"));
    assert!(stored.len() >= 100);
    for words in stored {
        let (w, sum, bits, string) = (number(words[0]), number(words[1]), bytes(words[2]), bytes(words[3]));
        let mut target = vec![0; string.len()];
        assert_eq!(mend(w, sum, &bits, &mut target), Ok(()), "{words:?}");
        assert_eq!(target, string, "{words:?}");
    }
}
