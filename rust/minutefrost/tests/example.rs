//! The example prints what the README says that it prints.

use std::env;
use std::process::Command;

#[test]
fn the_readme_tells_what_the_example_prints() {
    // Cargo builds the examples beside the folder that has this test.
    let here = env::current_exe().expect("a test has a path");
    let built = here.ancestors().nth(2).expect("deps lies in a folder");
    let program = built.join("examples/two_kiosks");
    let ran = Command::new(&program).output();
    let ran = ran.unwrap_or_else(|why| {
        let program = program.display();
        panic!("{program}: {why}; `cargo build --examples` makes it")
    });
    assert!(ran.status.success());
    let printed = String::from_utf8(ran.stdout).expect("text");
    let told = format!("\n```text\n{printed}```\n");
    assert!(include_str!("../README.md").contains(&told), "{printed}");
}
