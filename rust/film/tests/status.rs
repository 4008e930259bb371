//! Each exit status, and what is said with it.

mod common;

use std::fs;
use std::os::unix::fs::symlink;

use common::{ends, film, film_with, folder, refused, text};

/// Marked case 8 of the scope paper as a film of one row: six bits arrived, and two rows fit.
fn case_8(name: &str) -> std::path::PathBuf {
    let folder = folder(name);
    fs::write(folder.join("film.pbm"), "P1\n8 1\n0 0 1 1 0 1 1 0\n").unwrap();
    ends(0, &folder, "write film.pbm --layout 2,1,4,0 -o film.rsm");
    let received = container::Received { row_bits: 8, rows: vec![container::Row { bits: 6, packed: vec![0x3C] }] };
    fs::write(folder.join("film.rx"), received.encode()).unwrap();
    folder
}

#[test]
fn several_rows_are_status_1() {
    let folder = case_8("several");
    let report = ends(1, &folder, "list film.rsm film.rx --sent film.pbm --lists lists.txt -o out.pbm");
    assert!(report.contains("several rows       1 (size: lists; 2: 1)\n"), "{report}");
    assert!(report.contains("row 0: count 2, 2 bits lost\n"), "{report}");
    assert!(report.contains("sent but missing   0\n"), "{report}");
    assert_eq!(fs::read_to_string(folder.join("lists.txt")).unwrap(), "row 0 received 6 count 2\n36\n39\n");
    ends(0, &folder, "check film.pbm out.pbm");
    let report = ends(1, &folder, "list film.rsm film.rx --json -o out.pbm");
    assert!(report.contains("\"several\":{\"2\":1}"), "{report}");
    assert!(
        report.contains("\"open\":[{\"row\":0,\"panel\":0,\"lost\":2,\"too_many\":0,\"outcome\":\"count 2\"}]"),
        "{report}"
    );
}

/// The pad is white: rows of a list with ink in it are neither counted nor written, and marked in the text of the lists.
#[test]
fn rows_with_ink_in_the_pad_are_left_out() {
    let folder = folder("pad");
    fs::write(folder.join("film.pbm"), "P1\n7 3\n0 0 0 0 0 1 0\n0 0 0 1 0 1 0\n0 0 0 0 0 1 1\n").unwrap();
    ends(0, &folder, "write film.pbm --layout 2,1,4,0 -o film.rsm");
    let row = |packed| container::Row { bits: 6, packed: vec![packed] };
    let received =
        container::Received { row_bits: 8, rows: vec![row(0b0000_0000), row(0b0001_0000), row(0b0000_1000)] };
    fs::write(folder.join("film.rx"), received.encode()).unwrap();
    for patience in [0, 60] {
        let words = format!("list film.rsm film.rx --patience {patience} --sent film.pbm --lists lists -o out.pbm");
        let report = ends(1, &folder, &words);
        assert!(report.contains("recovered alone    2\nseveral rows       1 (size: lists; 2: 1)\n"), "{report}");
        assert!(report.contains("ruled out          3 listed rows with ink in the pad\n"), "{report}");
        assert!(report.contains("row 1: count 2, 2 bits lost\n"), "{report}");
        ends(0, &folder, "check film.pbm out.pbm");
        let lists = fs::read_to_string(folder.join("lists")).unwrap();
        let (first, second) = ("row 0 received 6 count 2\n03 pad\n04\n", "row 1 received 6 count 3\n13 pad\n14\nA4\n");
        assert_eq!(lists, format!("{first}{second}row 2 received 6 count 2\n06\n09 pad\n"));
    }
}

/// With `--quiet` the status alone says that rows are open or differ; errors are still said.
#[test]
fn quiet_commands_say_errors_only() {
    let folder = case_8("quiet");
    fs::write(folder.join("other.pbm"), "P1\n8 1\n1 0 1 1 0 1 1 0\n").unwrap();
    for (status, words) in [
        (1, "list film.rsm film.rx --sent film.pbm --quiet -o out.pbm"),
        (1, "list film.rsm film.rx --sent other.pbm --quiet -o out.pbm"),
        (0, "check film.pbm out.pbm --quiet"),
        (1, "check film.pbm other.pbm --quiet"),
        (1, "check other.pbm film.rsm --quiet"),
    ] {
        let output = film(&folder, words);
        assert_eq!(
            (output.status.code(), output.stdout, output.stderr),
            (Some(status), vec![], vec![]),
            "film {words}"
        );
    }
    assert!(refused(&folder, "check film.pbm none.pbm --quiet").contains("none.pbm: "));
}

/// Rows that lost more than 12 bits are refused by 7 and left white.
#[test]
fn refused_rows_are_status_1() {
    let folder = folder("refused");
    fs::write(folder.join("film.pbm"), common::made_up(60, 2)).unwrap();
    ends(0, &folder, "write film.pbm -o film.rsm");
    ends(0, &folder, "drop film.pbm --burst 13 -o film.rx");
    let report = ends(1, &folder, "list film.rsm film.rx -o out.pbm");
    assert!(report.contains("not listed         2 (refused: more than 12 bits lost (7): 2)\n"), "{report}");
    let film = text(&fs::read(folder.join("out.pbm")).unwrap());
    assert_eq!(film, format!("P4\n60 2\n{}", "\0".repeat(16)));
}

/// A row with more bits than were sent is said to have so many too many, and not to have lost none.
#[test]
fn rows_that_are_too_long_are_said_to_be() {
    let folder = case_8("longer");
    let rows = vec![container::Row { bits: 10, packed: vec![0x36, 0xC0] }];
    fs::write(folder.join("film.rx"), container::Received { row_bits: 8, rows }.encode()).unwrap();
    let report = ends(1, &folder, "list film.rsm film.rx -o out.pbm");
    assert!(report.contains("row 0: refused: more bits than were sent (7), 2 bits too many\n"), "{report}");
    assert!(report.contains("not listed         1 (refused: more bits than were sent (7): 1)\n"), "{report}");
    let report = ends(1, &folder, "list film.rsm film.rx --json -o out.pbm");
    assert!(report.contains("\"lost\":0,\"too_many\":2,\"outcome\":\"refused 7\""), "{report}");
    let shown = ends(0, &folder, "show film.rx");
    assert!(shown.contains("bits lost  0\nbits too many  2 (bits too many: rows; 2: 1)\n"), "{shown}");
}

/// The refusals stand with their numbers and words in the README, in the help that the man page is made of, and in the
/// page of rowlist.
#[test]
fn the_table_of_refusals() {
    let top = std::path::Path::new(env!("CARGO_MANIFEST_DIR")).join("../..");
    let readme = fs::read_to_string(top.join("README.md")).unwrap();
    let page = fs::read_to_string(top.join("tools/rowlist-help.sh")).unwrap();
    let help = ends(0, &folder("refusals"), "list --help");
    for number in 1..=10 {
        let when = dairyhour::Refusal::from_number(number).when();
        assert!(readme.contains(&format!("| {number} | {when} |")), "{number}");
        assert!(number == 10 || help.contains(&format!("{number:>4}  {when}\n")), "{number}: {help}");
        assert!(number == 10 || page.contains(&format!("{number:>4}  {when}\n")), "{number}: {page}");
    }
}

/// A row that is refused by 9, since its list is too long, is left white too; the text of the lists has the first of its
/// rows.
#[test]
fn rows_with_too_long_lists_are_left_white() {
    let folder = folder("too-long");
    fs::write(folder.join("film.pbm"), [&b"P4\n2040 1\n"[..], &[0xFF; 255]].concat()).unwrap();
    ends(0, &folder, "write film.pbm --layout 15,17,8,0 -o film.rsm");
    ends(0, &folder, "drop film.pbm --layout 15,17,8,0 --burst 4 -o film.rx");
    let report = ends(1, &folder, "list film.rsm film.rx --lists lists.txt -o out.pbm");
    assert!(report.contains("not listed         1 (refused: more rows than a list holds (9): 1)\n"), "{report}");
    assert_eq!(fs::read_to_string(folder.join("lists.txt")).unwrap().lines().count(), 1 + 65_536 / 255);
    assert_eq!(fs::read(folder.join("out.pbm")).unwrap(), [&b"P4\n2040 1\n"[..], &[0; 255]].concat());
}

#[test]
fn bad_usage_is_status_2() {
    let folder = case_8("usage");
    for words in [
        "",
        "unknown",
        "write",
        "write film.pbm",
        "write film.pbm -o x.rsm --layout 1,2,3",
        "write film.pbm -o x.rsm --layout 16,1,4,1",
        "drop film.pbm -o x.rx",
        "drop film.pbm --rate 2 -o x.rx",
        "drop film.pbm --rate 0.1 --burst 2 -o x.rx",
        "list film.rsm film.rx",
        "list film.rsm film.rx -o x.pbm --patience -1",
        "list film.rsm film.rx -o x.pbm --jobs many",
        "list film.rsm film.rx -o x.pbm --jobs 0",
        "list film.rsm film.rx -o x.pbm --jobs 257",
        "plot film.pbm film.rx film.pbm",
        "soak --most 13",
        "soak --case 1 --rows 2",
        "show film.rsm --panel 0",
        "write film.pbm -o x.rsm --format 3",
        "row",
        "row 52 3",
        "row 5 3C 6",
        "row 52 3G 6",
        "row 52 3C many",
    ] {
        let output = film(&folder, words);
        assert_eq!(output.status.code(), Some(2), "film {words}");
        assert!(!output.stderr.is_empty(), "film {words}");
    }
    assert!(fs::read_dir(&folder).unwrap().all(|entry| !entry.unwrap().file_name().to_string_lossy().starts_with('x')));
}

/// A number that an option does not take is told what the option wants, also a negative one.
#[test]
fn options_say_what_they_want() {
    let folder = case_8("wanted");
    let list = "list film.rsm film.rx -o x.pbm";
    for (words, said) in [
        (format!("{list} --patience -1"), "'-1' for '--patience <SECONDS>': a number of seconds is wanted, 0 or more"),
        (format!("{list} --jobs -1"), "'-1' for '--jobs <N>': a whole number from 1 to 256 is wanted"),
        (format!("{list} --jobs 0"), "'0' for '--jobs <N>': a whole number from 1 to 256 is wanted"),
        (String::from("drop film.pbm --rate -0.1 -o x"), "'-0.1' for '--rate <RATE>': a number from 0 to 1 is wanted"),
        (
            String::from("drop film.pbm --burst -3 -o x"),
            "'-3' for '--burst <BITS>': a whole number is wanted, 0 or more",
        ),
        (
            String::from("drop film.pbm --burst 1 --seed 1.5 -o x"),
            "'1.5' for '--seed <SEED>': a whole number is wanted",
        ),
        (String::from("show film.rsm --row -1"), "'-1' for '--row <ROW>': a whole number is wanted, 0 or more"),
        (String::from("soak --most 13"), "'13' for '--most <BITS>': a whole number from 0 to 12 is wanted"),
        (
            String::from("show film.rsm --row 0 --panel x"),
            "'x' for '--panel <PANEL>': a whole number is wanted, 0 or more",
        ),
        (String::from("write film.pbm -o x --format 3"), "'3' for '--format <VERSION>': a whole number from 1 to 2"),
        (String::from("row 52 3C -1"), "'-1' for '<BITS>': a whole number from 0 to 65535 is wanted"),
        (format!("{list} --deadline -1"), "'-1' for '--deadline <SECONDS>': a number of seconds is wanted, 0 or more"),
        (String::from("soak --case -1"), "'-1' for '--case <NUMBER>': a whole number is wanted, 0 or more"),
        (String::from("soak --rows -1"), "'-1' for '--rows <ROWS>': a whole number is wanted, 0 or more"),
        (String::from("write film.pbm -o x --layout -1,2,3,4"), "'-1,2,3,4' for '--layout <LAYOUT>': four numbers"),
    ] {
        let output = film(&folder, &words);
        let line = text(&output.stderr);
        assert!(output.status.code() == Some(2) && line.contains(said) && !line.contains("-- -"), "{words}: {line}");
    }
}

/// With both, the report is printed as JSON and nothing else is said.
#[test]
fn quiet_json_is_the_report_alone() {
    let folder = case_8("quiet-json");
    for (status, words) in [
        (0, "write film.pbm --layout 2,1,4,0 -o w.rsm"),
        (0, "drop film.pbm --burst 1 -o d.rx"),
        (1, "list film.rsm film.rx -o out.pbm"),
        (0, "check film.pbm film.rsm"),
        (0, "soak --rows 3 --most 1"),
    ] {
        let output = film(&folder, &format!("{words} --quiet --json"));
        let report = text(&output.stdout);
        assert_eq!((output.status.code(), text(&output.stderr)), (Some(status), String::new()), "{words}");
        assert!(report.starts_with('{') && report.ends_with("}\n") && report.lines().count() == 1, "{words}: {report}");
    }
}

/// A film of another size is not the same: that is a difference, and no bad file.
#[test]
fn other_sizes_are_status_1() {
    let folder = case_8("sizes");
    fs::write(folder.join("other.pbm"), common::made_up(8, 2)).unwrap();
    let said = "the sizes differ: the film has 8 × 1, the other 8 × 2\n";
    assert_eq!(ends(1, &folder, "check film.pbm other.pbm"), said);
    let said = "the sizes differ: the film has 8 × 2, the other 8 × 1\n";
    assert_eq!(ends(1, &folder, "check other.pbm film.rsm"), said);
    let report = ends(1, &folder, "check film.pbm other.pbm --json");
    assert!(report.contains("\"same\":false,\"different_sizes\":[\"8 × 1\",\"8 × 2\"],"), "{report}");
    assert!(ends(0, &folder, "check film.pbm film.pbm --json").contains("\"same\":true,\"different_sizes\":[],"));
}

/// A line that loses much of long rows has hundreds of different losses; the report has the first of them.
#[test]
fn long_histograms_are_cut() {
    let folder = folder("histograms");
    fs::write(folder.join("film.pbm"), common::made_up(2040, 60)).unwrap();
    let report = ends(0, &folder, "drop film.pbm --rate 0.5 -o film.rx");
    assert!(report.lines().all(|line| line.len() < 250) && report.contains(" others: "), "{report}");
    let report = ends(0, &folder, "drop film.pbm --rate 0.5 --json -o film.rx");
    assert!(report.matches(':').count() > 24, "{report}");
}

#[test]
fn files_that_do_not_go_together_are_status_2() {
    let folder = case_8("together");
    fs::write(folder.join("third.pbm"), "P1\n8 1\n0 0 1 1 0 1 1 1\n").unwrap();
    ends(0, &folder, "drop third.pbm --layout 2,1,4,0 --burst 1 -o third.rx");
    let line = refused(&folder, "list film.rsm third.rx -o x.pbm");
    assert!(line.starts_with("film: third.rx: these are rows of the film "), "{line}");
    ends(0, &folder, "drop third.pbm --layout 2,1,4,0 --burst 1 --format 1 -o third.rx");
    film(&folder, "list film.rsm third.rx -o y.pbm");
    assert!(folder.join("y.pbm").exists(), "a file without the identity of its film is read");
    ends(0, &folder, "write film.pbm --layout 2,1,4,0 --format 1 -o old.rsm");
    ends(0, &folder, "drop film.pbm --layout 2,1,4,0 --burst 1 -o new.rx");
    ends(0, &folder, "list old.rsm new.rx -o y.pbm");
    assert!(refused(&folder, "write none.pbm -o x.rsm").contains("none.pbm: "));
    assert!(refused(&folder, "list - - -o x.pbm").contains("only one"));
    assert!(refused(&folder, "show film.rsm --row 1").contains("there is no row 1"));
    assert!(refused(&folder, "plot film.pbm film.rx film.pbm -o picture.jpeg").contains(".png or .svg"));
    assert!(refused(&folder, "write film.pbm -o none/film.rsm").contains("none/film.rsm: "));
    fs::write(folder.join("other.pbm"), common::made_up(8, 2)).unwrap();
    ends(0, &folder, "drop other.pbm --layout 2,1,4,0 --burst 1 -o two.rx");
    assert!(refused(&folder, "list film.rsm two.rx -o x.pbm").contains("1 message, but 2 rows arrived"));
    ends(0, &folder, "drop film.pbm --layout 1,1,4,0 --burst 1 -o four.rx");
    assert!(refused(&folder, "list film.rsm four.rx -o x.pbm").contains("rows of 8 bits, but rows of 4 were sent"));
    assert!(refused(&folder, "list film.rsm film.rx --sent other.pbm -o x.pbm").contains("8 × 2"));
    assert!(refused(&folder, "plot other.pbm film.rx other.pbm -o x.png").contains("but 1 arrived"));
    fs::write(folder.join("tall.pbm"), [&b"P4\n1 2100000\n"[..], &[0; 2_100_000]].concat()).unwrap();
    assert!(refused(&folder, "plot tall.pbm film.rx tall.pbm -o x.png").contains("88 × 16800076 pixels"));
}

/// An output that is another one or an input is refused, however it is spelled, and every file stays as it was.
#[test]
fn outputs_that_would_replace_a_file_are_status_2() {
    let folder = case_8("apart");
    ends(1, &folder, "list film.rsm film.rx -o out.pbm");
    symlink("film.rsm", folder.join("link.rsm")).unwrap();
    symlink("none.txt", folder.join("nowhere")).unwrap();
    fs::copy(folder.join("film.pbm"), folder.join("sent.unfinished")).unwrap();
    let all = || ["film.pbm", "film.rsm", "film.rx", "out.pbm"].map(|name| fs::read(folder.join(name)).unwrap());
    let before = all();
    for words in [
        "list film.rsm film.rx -o - --lists -",
        "list film.rsm film.rx -o same --lists same",
        "list film.rsm film.rx -o same --lists ../apart/same",
        "list film.rsm film.rx -o nowhere --lists none.txt",
        "list film.rsm film.rx -o same --lists same.unfinished",
        "plot film.pbm film.rx out.pbm -o same.png -o ./same.png",
    ] {
        assert!(refused(&folder, words).contains("two outputs cannot go to the same file"));
    }
    for words in [
        "write film.pbm -o film.pbm",
        "drop film.pbm --burst 1 -o ./film.pbm",
        "list film.rsm film.rx -o film.rx",
        "list film.rsm film.rx -o link.rsm",
        "list film.rsm film.rx -o new.pbm --lists film.rsm",
        "list film.rsm film.rx --sent film.pbm -o film.pbm",
        "list film.rsm film.rx --sent sent.unfinished -o sent",
        "plot film.pbm film.rx out.pbm -o out.pbm",
    ] {
        assert!(refused(&folder, words).contains("an output cannot replace an input"));
    }
    assert!(all() == before);
    assert!(["same", "same.png", "new.pbm", "none.txt", "sent"].iter().all(|name| !folder.join(name).exists()));
    ends(1, &folder, "list film.rsm film.rx -o /dev/null --lists /dev/null");
}

#[test]
fn help_is_status_0_and_has_an_example() {
    let folder = folder("help");
    for command in ["write", "drop", "list", "show", "check", "plot", "soak", "row"] {
        let help = ends(0, &folder, &format!("{command} --help"));
        let example = ["board", "--rows", "52534D"].iter().any(|word| help.contains(&format!("film {command} {word}")));
        assert!(example, "{help}");
    }
    let help = ends(0, &folder, "--help");
    assert!(help.contains("Exit status: 0") && help.contains("130 interrupted"), "{help}");
    assert_eq!(ends(0, &folder, "help"), ends(0, &folder, "--help"));
    assert_eq!(ends(0, &folder, "help list"), ends(0, &folder, "list --help"));
    assert!(ends(0, &folder, "--version").starts_with("film "));
}

/// Every command calls a row by its row of the film, and its panel where there are several.
#[test]
fn rows_and_panels_have_one_name() {
    let folder = folder("names");
    fs::write(folder.join("film.pbm"), common::made_up(16, 2)).unwrap();
    ends(0, &folder, "write film.pbm --layout 2,1,4,0 -o film.rsm");
    ends(0, &folder, "drop film.pbm --layout 2,1,4,0 --burst 8 -o film.rx");
    let report = ends(1, &folder, "list film.rsm film.rx --lists lists -o out.pbm");
    assert!(report.contains("\nrow 1 panel 0: ") && report.contains("slowest            row "), "{report}");
    assert_eq!(report.matches(" panel ").count(), 4 + 3, "{report}");
    assert!(fs::read_to_string(folder.join("lists")).unwrap().contains("\nrow 1 panel 0 received 0 "));
    let json = ends(1, &folder, "list film.rsm film.rx --json -o out.pbm");
    assert_eq!((json.matches("\"row\":").count(), json.matches("\"panel\":").count()), (4 + 3, 4 + 3), "{json}");
    fs::write(
        folder.join("other.pbm"),
        "P1\n16 2\n1 1 1 1 1 1 1 1\n0 0 0 0 0 0 0 0\n1 0 1 0 1 0 1 0\n0 0 0 1 1 1 0 0\n",
    )
    .unwrap();
    assert!(ends(1, &folder, "check other.pbm film.rsm").contains("row 1 panel 0: another message\n"));
    for file in ["film.rsm", "film.rx"] {
        let shown = ends(0, &folder, &format!("show {file} --row 1"));
        let names: Vec<&str> = shown.lines().filter(|line| line.starts_with("row ")).collect();
        assert!(names.len() == 2 && names[0].starts_with("row 1 panel 0"), "{shown}");
        let shown = ends(0, &folder, &format!("show {file} --row 1 --panel 1"));
        assert!(shown.contains("\nrow 1 panel 1") && !shown.contains("panel 0"), "{shown}");
        let line = refused(&folder, &format!("show {file} --row 2 --panel 1"));
        assert!(line.contains("there is no row 2 panel 1: the file has 2 rows of 2 panels"), "{line}");
    }
    let mut bytes = fs::read(folder.join("film.rsm")).unwrap();
    // The length of the third message: each of them has 11 bytes.
    bytes[30 + 2 * 13 + 1] = 8;
    fs::write(folder.join("bad"), bytes).unwrap();
    assert!(refused(&folder, "show bad").contains("byte 56: the message of row 1 panel 0 has 8 bytes"));
}

/// One row from words on the command line, in the words of rowlist, with a status.
#[test]
fn one_row_from_words() {
    let folder = folder("one-row");
    // Marked case 8 of the scope paper, and the same row with one bit lost.
    assert_eq!(ends(1, &folder, "row 52534D0001020104004080 3C 6"), "count 2\n36\n39\n");
    assert_eq!(ends(0, &folder, "row 52534d0001020104004080 6C 7"), "count 1\n36\n");
    assert_eq!(ends(0, &folder, "row 52534d0001020104004080 6C 7 --patience 0"), "count 1\n36\n");
    let mut long = [0; dairyhour::LONGEST_MESSAGE];
    let length = dairyhour::write(dairyhour::Layout { l1: 5, l2: 3, nc: 4, r: 0 }, &[0; 8], &mut long).unwrap();
    let long: String = long[..length].iter().map(|byte| format!("{byte:02x}")).collect();
    for (status, words, number, said) in [
        (2, "52534D 3C 6", 1, "message under nine bytes, or another mark"),
        (2, "52534D0002020104004080 3C 6", 2, "version not 1"),
        (2, "52534D0001020104004080 3F 6", 8, "a row or string of another byte count"),
        (1, "52534D0001020104004080 36C0 10", 7, "more bits than were sent"),
        (1, &format!("{long} 00 3"), 7, "more than 12 bits lost"),
    ] {
        let output = film(&folder, &format!("row {words}"));
        let (printed, line) = (text(&output.stdout), text(&output.stderr));
        assert_eq!((output.status.code(), &printed[..]), (Some(status), &format!("refused {number}\n")[..]), "{words}");
        assert!(line.starts_with(&format!("film: refused: {said}")), "{line}");
    }
    let hangs = common::worker(&folder, "cat >/dev/null");
    let words = format!("row 52534D0001020104004080 3C 6 --patience 0.2 --worker {}", hangs.display());
    assert_eq!(ends(1, &folder, &words), "given up\n");
}

/// Outputs are tried before the work: no worker is started, and no input is read.
#[test]
fn outputs_are_tried_before_the_work() {
    let folder = case_8("tried");
    let script = common::worker(&folder, "touch began");
    let long = "n".repeat(250);
    for outputs in [format!("-o {long}"), format!("-o out.pbm --lists {long}"), format!("-o out.pbm --mask {long}")] {
        let line = refused(&folder, &format!("list film.rsm film.rx {outputs} --worker {}", script.display()));
        assert!(line.contains(&format!("{long}: ")), "{line}");
    }
    assert!(!folder.join("began").exists() && !folder.join("out.pbm").exists());
    assert!(refused(&folder, "plot none.pbm film.rx none.pbm -o picture.jpeg").contains(".png or .svg"));
    assert!(common::partial_files(&folder).is_empty());
}

/// The mask is black in the columns of every row that was not recovered alone.
#[test]
fn rows_that_are_not_certain_are_masked() {
    let folder = folder("mask");
    fs::write(folder.join("film.pbm"), common::made_up(13, 2)).unwrap();
    ends(0, &folder, "write film.pbm --layout 2,1,4,0 -o film.rsm");
    let row = |bits, packed| container::Row { bits, packed };
    let mut received = container::Received { row_bits: 8, rows: vec![row(0, vec![]); 4] };
    let sent = container::Messages::decode(&fs::read(folder.join("film.rsm")).unwrap()).unwrap();
    let mut list = [0; 16];
    // What arrived of the second row's first panel is whole: the only row of its message with eight bits.
    let found =
        (0..=255_u8).find(|packed| dairyhour::list(&sent.messages[2], &[*packed], 8, &mut list) == Ok(1)).unwrap();
    received.rows[2] = row(8, vec![found]);
    fs::write(folder.join("film.rx"), received.encode()).unwrap();
    ends(1, &folder, "list film.rsm film.rx -o out.pbm --mask mask.pbm");
    let mask = fs::read(folder.join("mask.pbm")).unwrap();
    assert_eq!(mask, [&b"P4\n13 2\n"[..], &[0xFF, 0xF8, 0x00, 0xF8]].concat());
}

/// `-` is standard input and output, and the report then goes to standard error.
#[test]
fn standard_input_and_output() {
    let folder = case_8("standard");
    let file = |name: &str| fs::read(folder.join(name)).unwrap();
    let output = film_with(&folder, "write - --layout 2,1,4,0 -o -", &file("film.pbm"));
    assert_eq!(output.stdout, file("film.rsm"));
    assert!(text(&output.stderr).contains("layout     2,1,4,0"));
    let output = film_with(&folder, "write - --layout 2,1,4,0 --quiet -o -", &file("film.pbm"));
    assert_eq!((output.stdout, output.stderr), (file("film.rsm"), vec![]));
    ends(0, &folder, "drop film.pbm --layout 2,1,4,0 --burst 1 -o dropped.rx");
    assert_eq!(film(&folder, "drop film.pbm --layout 2,1,4,0 --burst 1 -o -").stdout, file("dropped.rx"));
    ends(1, &folder, "list film.rsm film.rx -o out.pbm");
    for (words, input) in [("list - film.rx -o -", "film.rsm"), ("list film.rsm - -o -", "film.rx")] {
        let output = film_with(&folder, words, &file(input));
        assert_eq!((output.status.code(), output.stdout), (Some(1), file("out.pbm")));
    }
    let shown = film_with(&folder, "show -", &file("film.rsm"));
    assert!(text(&shown.stdout).contains("  block sums         2 0\n  chunk-string sums  2\n  checks             \n"));
    let shown = film_with(&folder, "show -", &file("film.rx"));
    assert!(text(&shown.stdout).contains("row 0 of the line: 6 bits 3C\n"));
    assert_eq!(film_with(&folder, "check - out.pbm", &file("film.pbm")).status.code(), Some(0));
    let picture = film(&folder, "plot film.pbm film.rx out.pbm -o -").stdout;
    assert!(picture.starts_with(b"\x89PNG\r\n"));
}

/// The system's names of standard input and output are `-` too: only the file goes there, into a pipe as into a file.
#[test]
fn the_systems_names_of_standard_input_and_output() {
    let folder = case_8("system-names");
    let file = |name: &str| fs::read(folder.join(name)).unwrap();
    for name in ["/dev/stdout", "/dev/fd/1", "/proc/self/fd/1"] {
        let words = format!("write film.pbm --layout 2,1,4,0 -o {name}");
        let output = film(&folder, &words);
        assert_eq!(output.stdout, file("film.rsm"), "{name}");
        assert!(text(&output.stderr).contains("layout     2,1,4,0"), "{name}");
        let into = fs::File::create(folder.join("into")).unwrap();
        let mut command = std::process::Command::new(common::FILM);
        command.current_dir(&folder).args(words.split_whitespace()).stdout(into);
        assert!(command.output().unwrap().status.success());
        assert_eq!(file("into"), file("film.rsm"), "{name}");
    }
    let line = refused(&folder, "list film.rsm film.rx -o - --lists /dev/stdout");
    assert!(line.contains("two outputs cannot go to the same file"), "{line}");
    assert!(refused(&folder, "list - /dev/stdin -o x.pbm").contains("only one"));
    let output = film_with(&folder, "write /dev/stdin --layout 2,1,4,0 --quiet -o /dev/stdout", &file("film.pbm"));
    assert_eq!((output.stdout, output.stderr), (file("film.rsm"), vec![]));
    let line = text(&film_with(&folder, "write /dev/fd/0 -o x.rsm", b"P1 1 1 2").stderr);
    assert_eq!(line, "film: standard input: byte 7: '2' where 0 or 1 should be\n");
}

#[test]
fn pictures_by_their_ending() {
    let folder = case_8("pictures");
    ends(1, &folder, "list film.rsm film.rx -o out.pbm");
    ends(0, &folder, "plot film.pbm film.rx out.pbm -o picture.png -o picture.SVG");
    assert!(fs::read(folder.join("picture.png")).unwrap().starts_with(b"\x89PNG\r\n"));
    let svg = fs::read_to_string(folder.join("picture.SVG")).unwrap();
    assert!(svg.contains("<svg") && svg.contains("data:image/png;base64,") && svg.contains("received: 2 bits lost"));
}

/// A picture says how many rows were listed: as the lists say, or without them at most so many.
#[test]
fn pictures_say_how_many_rows_were_listed() {
    let folder = folder("pictures-listed");
    fs::write(folder.join("film.pbm"), "P1\n60 3\n".to_string() + &"0".repeat(60) + &"01".repeat(60)).unwrap();
    ends(0, &folder, "write film.pbm -o film.rsm");
    ends(0, &folder, "drop film.pbm --burst 1 -o film.rx");
    ends(0, &folder, "list film.rsm film.rx --lists lists.txt -o out.pbm");
    let lists = fs::read_to_string(folder.join("lists.txt")).unwrap();
    // As if the first row, which is blank, and the second had not been listed, which the film shows of the second alone.
    let lists = lists.replacen("count 1\n0000000000000000\n", "given up\n", 1).replacen(
        "count 1\n5555555555555550\n",
        "refused 9\n",
        1,
    );
    fs::write(folder.join("lists.txt"), lists).unwrap();
    fs::write(folder.join("out.pbm"), "P1\n60 3\n".to_string() + &"0".repeat(120) + &"01".repeat(30)).unwrap();
    for (words, said) in [("", ">\nlisted: at most 2 of 3 rows\n"), ("--lists lists.txt", ">\nlisted: 1 of 3 rows\n")] {
        ends(0, &folder, &format!("plot film.pbm film.rx out.pbm {words} -o picture.svg"));
        let svg = fs::read_to_string(folder.join("picture.svg")).unwrap();
        assert!(svg.contains(said) && svg.contains("recovered: 2 of 3 rows equal"), "{words}: {svg}");
    }
    // A list of which the pad rules out all rows is as one of none.
    let ruled_out =
        "row 0 received 59 count 1\n0000000000000001 pad\n".to_string() + &"row 1 received 59 count 1\n00\n".repeat(2);
    fs::write(folder.join("pad.txt"), ruled_out).unwrap();
    ends(0, &folder, "plot film.pbm film.rx out.pbm --lists pad.txt -o picture.svg");
    assert!(fs::read_to_string(folder.join("picture.svg")).unwrap().contains(">\nlisted: 2 of 3 rows\n"));
    fs::write(folder.join("two.txt"), "row 0 received 59 count 0\nrow 1 received 59 count 0\n").unwrap();
    let line = refused(&folder, "plot film.pbm film.rx out.pbm --lists two.txt -o x.png");
    assert!(line.contains("two.txt: these are the lists of 2 rows, but 3 arrived"), "{line}");
}

/// No command needs the libraries of fonts, which a plotter room's machine may lack.
#[test]
fn no_font_library_is_linked() {
    let program = text(&fs::read(common::FILM).unwrap());
    assert!(program.contains("libc.so.6"));
    assert!(!program.contains("libfontconfig.so") && !program.contains("libfreetype.so"));
}
