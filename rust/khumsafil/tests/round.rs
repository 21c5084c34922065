//! The example is run as it stands, and says what it is to say.

use std::ffi::OsString;
use std::process::Command;

/// The example, which cargo builds beside the tests, under the emulator whose words the environment variable
/// `KHUMSAFIL_UNDER` has.
fn example() -> Command {
    let this = std::env::current_exe().expect("this program");
    let built = this.ancestors().nth(2).expect("the folder of the build");
    let under = std::env::var("KHUMSAFIL_UNDER").unwrap_or_default();
    let mut words: Vec<_> = under.split_whitespace().map(OsString::from).collect();
    words.push(built.join("examples/round").into());
    let mut command = Command::new(&words[0]);
    command.args(&words[1..]);
    command
}

#[test]
fn the_example_goes_round() {
    let done = example()
        .output()
        .expect("the example is built: cargo test -p khumsafil");
    assert!(done.status.success(), "{}", done.status);
    let said = String::from_utf8(done.stdout).expect("text");
    // The same text that samples/round.c is held to.
    assert_eq!(said, include_str!("../../../samples/round.txt"));
}
