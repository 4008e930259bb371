//! Rows that take too long, workers that end, and a tool that is killed.

mod common;

use std::fs;
use std::io::{Read, Write};
use std::os::unix::fs::{MetadataExt, PermissionsExt};
use std::path::{Path, PathBuf};
use std::process::{Child, Command, Stdio};
use std::thread::sleep;
use std::time::{Duration, Instant};

use common::{ends, folder, made_up, worker, FILM};

/// The files of a film of three rows, each of which lost a bit.
fn files(name: &str) -> PathBuf {
    let folder = folder(name);
    fs::write(folder.join("film.pbm"), made_up(60, 3)).unwrap();
    ends(0, &folder, "write film.pbm -o film.rsm");
    ends(0, &folder, "drop film.pbm --burst 1 -o film.rx");
    folder
}

/// The bytes that a worker is asked for a row of such a film with.
fn question(folder: &Path) -> usize {
    4 + container::Messages::decode(&fs::read(folder.join("film.rsm")).unwrap()).unwrap().messages[0].len() + 8
}

/// Waits until something is so, at most half a minute.
fn until(what: &str, so: impl Fn() -> bool) {
    let began = Instant::now();
    while !so() {
        assert!(began.elapsed() < Duration::from_secs(30), "{what}");
        sleep(Duration::from_millis(20));
    }
}

/// Is there a process with the number that stands in this file?
fn lives(pid_file: &Path) -> bool {
    let pid = fs::read_to_string(pid_file).unwrap_or_default();
    !pid.trim().is_empty() && Path::new("/proc").join(pid.trim()).exists()
}

/// The first worker hangs: its row is given up and its process killed, and the other rows are listed.
#[test]
fn a_row_that_takes_too_long_is_given_up() {
    let folder = files("given-up");
    let script = worker(
        &folder,
        &format!("[ -e pid ] && exec {FILM} \"$@\"\necho $$ >pid.new && mv pid.new pid\nexec sleep 1000"),
    );
    let words = format!("list film.rsm film.rx --jobs 1 --patience 0.5 --worker {} -o out.pbm", script.display());
    let report = ends(1, &folder, &words);
    assert!(report.contains("recovered alone    2\n"), "{report}");
    assert!(report.contains("not listed         1 (given up: 1)\n"), "{report}");
    assert!(report.contains("row 0: given up, 1 bit lost\n"), "{report}");
    assert!(folder.join("pid").exists() && !lives(&folder.join("pid")));
    let differ = ends(1, &folder, "check film.pbm out.pbm");
    assert!(differ.ends_with("1 row of 3 rows of 60 bits differs\n"), "{differ}");
}

/// A worker that ends is started again and its row repeated; a row at which two end is reported, and costs no other.
#[test]
fn a_worker_that_ends_is_started_again() {
    let folder = files("ended");
    let starts = |ends: usize| {
        let _ = fs::remove_file(folder.join("starts"));
        let script = format!("echo x >>starts\n[ $(wc -l <starts) -gt {ends} ] && exec {FILM} \"$@\"\nexit 1");
        format!("list film.rsm film.rx --jobs 1 --worker {} -o out.pbm", worker(&folder, &script).display())
    };
    ends(0, &folder, &starts(1));
    ends(0, &folder, "check film.pbm out.pbm");
    let report = ends(1, &folder, &starts(2));
    assert!(report.contains("recovered alone    2\n") && report.contains("worker ended: 1"), "{report}");
    assert!(report.contains("row 0: worker ended, 1 bit lost\n"), "{report}");
}

/// Where no worker can be started nothing is written; where none can be started any more, what is done is.
#[test]
fn workers_that_cannot_be_started() {
    let folder = files("not-started");
    let line = common::refused(&folder, "list film.rsm film.rx --quiet --worker ./none -o none.pbm");
    assert!(line.contains("./none: a worker cannot be started: ") && !folder.join("none.pbm").exists(), "{line}");
    let script = worker(&folder, "rm \"$0\"\nhead -c 20 /dev/zero\nhead -c 1 >/dev/null");
    let words = format!("list film.rsm film.rx --jobs 1 --lists lists --worker {} -o out.pbm", script.display());
    let output = common::film(&folder, &words);
    let (report, said) = (common::text(&output.stdout), common::text(&output.stderr));
    assert_eq!(output.status.code(), Some(2), "{said}");
    assert!(said.starts_with("film: ") && said.contains("worker.sh: a worker cannot be started: "), "{said}");
    assert!(report.contains("not listed         3 (no row fits: 1, not done: 2)\n"), "{report}");
    assert!(report.contains("\nunfinished         out.pbm.unfinished, lists.unfinished\n"), "{report}");
    assert!(folder.join("out.pbm.unfinished").exists() && !folder.join("out.pbm").exists());
    let lists = fs::read_to_string(folder.join("lists.unfinished")).unwrap();
    assert_eq!(lists, "row 0 received 59 count 0\nrow 1 received 59 not done\nrow 2 received 59 not done\n");
}

/// Where no thread can be started, that is said. A user of its own may have no more than the one process.
#[test]
fn threads_that_cannot_be_started() {
    let folder = std::env::temp_dir().join(format!("dairyhour-threads-{}", std::process::id()));
    fs::create_dir_all(&folder).unwrap();
    for (name, mode) in [("film.rsm", 0o644), ("film.rx", 0o644), ("film", 0o755)] {
        let from = if name == "film" { PathBuf::from(FILM) } else { files("threads").join(name) };
        fs::copy(from, folder.join(name)).unwrap();
        fs::set_permissions(folder.join(name), fs::Permissions::from_mode(mode)).unwrap();
    }
    fs::set_permissions(&folder, fs::Permissions::from_mode(0o755)).unwrap();
    let limit = ["prlimit", "--nproc=1", "./film", "list", "film.rsm", "film.rx", "-o", "-"];
    let root = fs::metadata("/proc/self").unwrap().uid() == 0;
    let user = ["setpriv", "--reuid=54321", "--regid=54321", "--clear-groups"];
    let words: Vec<&str> = user.into_iter().filter(|_| root).chain(limit).collect();
    let output = Command::new(words[0]).args(&words[1..]).current_dir(&folder).output().unwrap();
    fs::remove_dir_all(&folder).unwrap();
    let said = common::text(&output.stderr);
    assert_eq!((output.status.code(), output.stdout), (Some(2), vec![]), "{said}");
    assert!(said.starts_with("film: no thread can be started: ") && said.lines().count() == 1, "{said}");
}

/// Rows go to a worker several at a time: this one answers the first, and then only two together. On a busy machine the second
/// of these may be asked for again.
#[test]
fn a_worker_is_asked_for_rows_ahead() {
    let folder = files("ahead");
    let question = question(&folder);
    let script = format!(
        "head -c {question} >/dev/null\nhead -c 20 /dev/zero\nhead -c {} >/dev/null\nhead -c 40 /dev/zero\n\
         while [ $(head -c {question} | wc -c) -gt 0 ]; do head -c 20 /dev/zero; done",
        2 * question
    );
    let words = format!("list film.rsm film.rx --jobs 1 --worker {} -o out.pbm", worker(&folder, &script).display());
    let report = ends(1, &folder, &words);
    assert!(report.contains("not listed         3 (no row fits: 3)\n"), "{report}");
}

/// Patience holds for each row, also where many are asked for at a time: of these only the one that takes long is given up.
#[test]
fn a_slow_row_among_quick_ones() {
    let folder = folder("slow-row");
    let row =
        |row: usize| if row == 200 { vec![0xFF; 255] } else { (0..255).map(|at| (at * row % 251) as u8).collect() };
    let film: Vec<u8> = (0..300).flat_map(row).collect();
    fs::write(folder.join("film.pbm"), [&b"P4\n2040 300\n"[..], &film].concat()).unwrap();
    ends(0, &folder, "write film.pbm --layout 15,17,8,0 -o film.rsm");
    ends(0, &folder, "drop film.pbm --layout 15,17,8,0 --burst 1 -o film.rx");
    let mut received = container::Received::decode(&fs::read(folder.join("film.rx")).unwrap()).unwrap();
    // A row of ones without checks, 12 bits short: its list takes longer than half a minute.
    received.rows[200] = container::Row { bits: 2028, packed: [&[0xFF; 253][..], &[0xF0]].concat() };
    fs::write(folder.join("film.rx"), received.encode()).unwrap();
    for jobs in [1, 2] {
        let report = ends(1, &folder, &format!("list film.rsm film.rx --jobs {jobs} --patience 2 -o out.pbm"));
        assert!(report.contains("recovered alone    299\n"), "{report}");
        assert!(report.contains("row 200: given up, 12 bits lost\n"), "{report}");
    }
}

/// Lists without the row that was sent are counted: this worker answers each question by an empty list.
#[test]
fn a_missing_row_is_seen() {
    let folder = files("missing");
    let script = worker(&folder, "head -c 60 /dev/zero\ncat >/dev/null");
    let words = format!("list film.rsm film.rx --sent film.pbm --jobs 1 --worker {} -o out.pbm", script.display());
    let report = ends(1, &folder, &words);
    assert!(report.contains("not listed         3 (no row fits: 3)\n"), "{report}");
    assert!(report.contains("sent but missing   3\n"), "{report}");
}

/// Killed while it lists, the tool leaves the file that stood there, no other one, and no worker.
#[test]
fn a_killed_tool_leaves_nothing_half_written() {
    let folder = files("killed");
    // This worker never answers, and ends with its input.
    let script = worker(&folder, "echo $$ >pid.new && mv pid.new pid\ncat >/dev/null");
    fs::write(folder.join("out.pbm"), "as it was").unwrap();
    let mut child = Command::new(FILM)
        .current_dir(&folder)
        .args(["list", "film.rsm", "film.rx", "--jobs", "1", "--lists", "lists.txt", "-o", "out.pbm", "--worker"])
        .arg(script)
        .spawn()
        .unwrap();
    let pid = folder.join("pid");
    until("the worker starts", || lives(&pid));
    child.kill().unwrap();
    child.wait().unwrap();
    until("the worker ends", || !lives(&pid));
    assert_eq!(fs::read(folder.join("out.pbm")).unwrap(), b"as it was");
    assert!(!folder.join("lists.txt").exists());
    assert!(common::partial_files(&folder).is_empty());
}

/// After an interrupt the rows that are done are written and the others marked, with status 130.
#[test]
fn an_interrupt_leaves_what_is_done() {
    let folder = files("interrupt");
    // This worker answers the first row by an empty list, and then nothing. That it is asked for another row says that the
    // answer has arrived.
    let script = format!(
        "head -c {} >/dev/null\nhead -c 20 /dev/zero\nhead -c 1 >/dev/null\ntouch began\nexec cat >/dev/null",
        question(&folder)
    );
    let began = || folder.join("began").exists();
    let words = ["--worker", &worker(&folder, &script).display().to_string()];
    fs::write(folder.join("out.pbm"), "as it was").unwrap();
    let report = interrupted(&folder, &words, began);
    assert!(report.contains("not listed         3 (no row fits: 1, not done: 2)\n"), "{report}");
    let files = "out.pbm.unfinished, lists.unfinished, mask.pbm.unfinished";
    assert!(report.contains(&format!("\nunfinished         {files}\n")), "{report}");
    assert_eq!(fs::read(folder.join("out.pbm")).unwrap(), b"as it was");
    // In the tool's own process a list cannot be stopped, and is left as it is.
    endless(&folder);
    interrupted(&folder, &["--patience", "0"], || true);
}

/// Interrupts a tool that lists, once this is so, and answers its report.
fn interrupted(folder: &Path, words: &[&str], so: impl Fn() -> bool) -> String {
    let outputs = ["-o", "out.pbm", "--lists", "lists", "--mask", "mask.pbm", "--jobs", "1"];
    let mut command = Command::new(FILM);
    command.current_dir(folder).args(["list", "film.rsm", "film.rx"]).args(outputs).args(words);
    let child = command.stdout(Stdio::piped()).spawn().unwrap();
    until("the work begins", || lists(child.id()) && so());
    assert!(Command::new("kill").args(["-INT", &child.id().to_string()]).status().unwrap().success());
    let output = child.wait_with_output().unwrap();
    let report = common::text(&output.stdout);
    assert_eq!(output.status.code(), Some(130), "{report}");
    assert!(report.contains("not done: "), "{report}");
    let lists = fs::read_to_string(folder.join("lists.unfinished")).unwrap();
    assert!(lists.contains("\nrow 2 received ") && lists.ends_with(" not done\n"), "{lists}");
    assert!(fs::read(folder.join("mask.pbm.unfinished")).unwrap().last() > Some(&0));
    assert!(folder.join("out.pbm.unfinished").exists() && common::partial_files(folder).is_empty());
    assert!(!folder.join("lists").exists() && !folder.join("mask.pbm").exists());
    report
}

/// Has this process begun to list? It starts its threads when it has read its files and takes interrupts.
fn lists(pid: u32) -> bool {
    fs::read_dir(format!("/proc/{pid}/task")).map_or(0, Iterator::count) > 1
}

/// The files of a film of three rows: the first is whole, and the lists of the others take longer than half a minute.
fn endless(folder: &Path) {
    fs::write(folder.join("film.pbm"), [&b"P4\n2040 3\n"[..], &[0xFF; 765]].concat()).unwrap();
    ends(0, folder, "write film.pbm --layout 15,17,8,0 -o film.rsm");
    let row = |bits, packed: Vec<u8>| container::Row { bits, packed };
    let long = row(2028, [&[0xFF; 253][..], &[0xF0]].concat());
    let rows = vec![row(2040, vec![0xFF; 255]), long.clone(), long];
    fs::write(folder.join("film.rx"), container::Received { row_bits: 2040, rows }.encode()).unwrap();
}

/// The deadline ends the work in the same way, in workers and without them. It was asked for, as patience is: the status is 1,
/// and the files have their names.
#[test]
fn a_deadline_leaves_what_is_done() {
    let folder = files("deadline");
    endless(&folder);
    for patience in ["60", "0"] {
        let words =
            format!("list film.rsm film.rx --jobs 1 --patience {patience} --deadline 2 -o out.pbm --lists lists");
        let report = ends(1, &folder, &words);
        assert!(report.contains("recovered alone    1\n"), "{report}");
        assert!(report.contains("not listed         2 (not done: 2)\n"), "{report}");
        let lists = fs::read_to_string(folder.join("lists")).unwrap();
        assert!(lists.starts_with("row 0 received 2040 count 1\nFFFF"), "{lists}");
        assert!(lists.ends_with("row 1 received 2028 not done\nrow 2 received 2028 not done\n"), "{lists}");
    }
}

fn start_worker() -> Child {
    Command::new(FILM).arg("worker").stdin(Stdio::piped()).stdout(Stdio::piped()).spawn().unwrap()
}

/// A worker answers, and ends when its input ends, also in the middle of a row.
#[test]
fn a_worker_ends_with_its_input() {
    let mut child = start_worker();
    let mut input = child.stdin.take().unwrap();
    let question = [0, 11, 0, 6, 0x52, 0x53, 0x4D, 0, 1, 2, 1, 4, 0, 0x40, 0x80, 0x3C];
    input.write_all(&question).unwrap();
    let mut answer = [0; 22];
    child.stdout.take().unwrap().read_exact(&mut answer).unwrap();
    assert_eq!(answer[..12], [0, 0, 0, 0, 0, 0, 0, 2, 0, 0, 0, 2]);
    assert_eq!(answer[20..], [0x36, 0x39]);
    drop(input);
    assert!(child.wait().unwrap().success());

    // A row of 2,040 ones without checks, 12 bits short: its list takes longer than half a minute.
    let mut child = start_worker();
    let mut message = [0; dairyhour::LONGEST_MESSAGE];
    let layout = dairyhour::Layout { l1: 15, l2: 17, nc: 8, r: 0 };
    let length = dairyhour::write(layout, &[0xFF; 255], &mut message).unwrap();
    let received = [&[0xFF; 253][..], &[0xF0]].concat();
    let question = [&[0, length as u8, 7, 0xEC][..], &message[..length], &received].concat();
    let mut input = child.stdin.take().unwrap();
    input.write_all(&question).unwrap();
    // The worker begins its list.
    sleep(Duration::from_millis(300));
    drop(input);
    let began = Instant::now();
    while child.try_wait().unwrap().is_none() {
        if began.elapsed() > Duration::from_secs(3) {
            child.kill().unwrap();
            panic!("the worker goes on");
        }
        sleep(Duration::from_millis(20));
    }
    let mut answer = Vec::new();
    child.stdout.take().unwrap().read_to_end(&mut answer).unwrap();
    assert!(answer.is_empty(), "the list was done before the input ended");
}

#[test]
fn soaking() {
    let folder = files("soaking");
    let report = ends(0, &folder, "soak --rows 200 --seed 3 --most 2 --layout 5,3,4,12 film.pbm");
    assert!(report.contains("rows tried         200 "), "{report}");
    assert!(report.contains("verdict            no row missing or wrong\n"), "{report}");
    let report = ends(0, &folder, "soak --rows 50 --seed 4 --most 1 --json");
    assert!(report.contains("\"rows\":50,") && report.contains("\"faults\":[]"), "{report}");

    // This worker answers each question by an empty list.
    let script = worker(&folder, "head -c 20 /dev/zero\ncat >/dev/null");
    let words = format!("soak --jobs 1 --worker {}", script.display());
    let output = common::film(&folder, &format!("{words} --rows 9"));
    assert_eq!(output.status.code(), Some(1));
    let said = common::text(&output.stderr);
    let fault = "case 0 of seed 1, a row of the kind";
    assert!(said.contains(fault) && said.contains("the row that was sent is missing"), "{said}");
    assert!(said.contains("\nmessage   52534D0001") && said.contains("\nreceived  "), "{said}");

    // Its case can be tried again, and is shown also where nothing is wrong with it.
    assert!(common::text(&common::film(&folder, &format!("{words} --case 0")).stderr) == said);
    let shown = ends(0, &folder, "soak --case 0");
    let (_, case) = said.split_once('\n').unwrap();
    assert!(shown.starts_with("case 0: a row of the kind") && shown.contains(case), "{shown}");
    assert!(shown.contains("rows tried         1 "), "{shown}");
}

/// A row that is given up is described and is no fault, unless it is to be; meanwhile it is said how far the run is.
#[test]
fn soaking_with_rows_that_take_too_long() {
    let folder = folder("soaking-long");
    let script = worker(&folder, "cat >/dev/null");
    let words = format!("soak --rows 1 --patience 4 --worker {}", script.display());
    let output = common::film(&folder, &words);
    let (report, said) = (common::text(&output.stdout), common::text(&output.stderr));
    assert_eq!(output.status.code(), Some(0), "{report}{said}");
    assert!(said.starts_with("film: 0 of 1 rows after "), "{said}");
    assert!(report.contains("not listed         1 (given up: 1)\n"), "{report}");
    assert!(report.contains("\ncase 0: a row of the kind") && report.contains(": given up after 4."), "{report}");
    assert!(report.contains("verdict            no row missing or wrong\n"), "{report}");
    let report =
        ends(1, &folder, &format!("soak --rows 1 --patience 0.1 --strict --json --worker {}", script.display()));
    assert!(report.contains("\"given_up\":1,") && report.contains("\"given_up_cases\":[\"case 0: "), "{report}");
}
