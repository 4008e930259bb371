//! The C header and the library fit: a C program that knows nothing but the header is built and run.

use std::path::{Path, PathBuf};
use std::process::Command;

const PRINTED: &str = "\
write 0 16
message 52 53 4D 00 01 05 03 04 04 A6 34 B5 D0 96 DA 40
read 0 5 3 4 4
fields 10 6 3 4 11 11 20 4 11 6 13 2
mend 0 0
string D0
list 0 2
rows 36 39
write 3 0
read 1 0 0 0 0
mend 5 0
list 9 0
list 7 0
limits 154 272 255 65536
";

#[test]
fn a_c_program_over_the_header() {
    let tester = Path::new(env!("CARGO_MANIFEST_DIR"));
    let top = tester.join("../..");
    let program: PathBuf = Path::new(env!("CARGO_TARGET_TMPDIR")).join("header");
    let built = Command::new("cc")
        .args(["-std=c99", "-Wall", "-Wextra", "-Werror", "-pedantic", "-I"])
        .arg(top.join("include"))
        .arg(tester.join("tests/header.c"))
        .arg(top.join("crates/dairyhour/out/libdairyhour.a"))
        .arg("-o")
        .arg(&program)
        .output()
        .expect("a C compiler named cc");
    assert!(built.status.success(), "{}", String::from_utf8_lossy(&built.stderr));

    let run = Command::new(&program).output().expect("the program that was built");
    assert!(run.status.success());
    assert_eq!(String::from_utf8_lossy(&run.stdout), PRINTED);
}
