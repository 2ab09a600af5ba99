//! The example `monitor`, run over the repository's examples.

use std::process::{Command, Output};

/// The example over a folder. Cargo builds it first, if it is not there.
fn monitor(folder: &str) -> Output {
    Command::new(env!("CARGO"))
        .args([
            "run",
            "--quiet",
            "--offline",
            "--example",
            "monitor",
            folder,
        ])
        .current_dir(env!("CARGO_MANIFEST_DIR"))
        .output()
        .unwrap()
}

fn lines(bytes: &[u8]) -> Vec<&str> {
    std::str::from_utf8(bytes).unwrap().lines().collect()
}

#[test]
fn the_table_of_states() {
    let output = monitor("../../examples");
    assert_eq!(
        lines(&output.stdout),
        [
            "antenna.xml org.example.Antenna.Mode 0=Parked 1=Slewing 2=Tracking",
            "hinge.xml org.example.Hinge.State has no enum State",
        ]
    );
    assert_eq!(
        lines(&output.stderr),
        [
            "damaged.xml:8:63: error: unknown entity `&when;`",
            "hinge.xml:3:5: warning: malformed element `<tp:enum>` ignored: \
             an enumvalue is missing its `suffix` or `value` attribute",
            "part.xml:3:3: warning: unsupported element `<method>` ignored",
            "part.xml:6:3: warning: unsupported element `<method>` ignored",
            "part.xml:9:3: warning: unsupported element `<property>` ignored",
        ]
    );
    assert!(output.status.success());
}

#[test]
fn a_folder_that_is_not_there() {
    let output = monitor("nothing");
    assert_eq!(
        lines(&output.stderr),
        ["monitor: cannot read nothing: No such file or directory (os error 2)"]
    );
    assert_eq!(output.status.code(), Some(2));
}
