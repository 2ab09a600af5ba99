//! The command `introspect`: what it writes, where, and its exit status.

use std::fs::{self, File};
use std::io::Write;
use std::os::unix::ffi::OsStrExt;
use std::path::PathBuf;
use std::process::{Command, Output, Stdio};

const ROOT: &str = concat!(env!("CARGO_MANIFEST_DIR"), "/../..");

/// The command, at the repository's root, with nothing on standard input.
fn introspect(arguments: &[&str]) -> Command {
    let mut command = Command::new(env!("CARGO_BIN_EXE_introspect"));
    command
        .args(arguments)
        .current_dir(ROOT)
        .env_remove("NO_COLOR")
        .stdin(Stdio::null());
    command
}

/// Standard output, standard error and the exit status.
fn said(output: Output) -> (String, String, i32) {
    let text = |bytes| String::from_utf8(bytes).expect("what is written is UTF-8");
    let status = output.status.code().expect("it ended by itself");
    (text(output.stdout), text(output.stderr), status)
}

fn run(arguments: &[&str]) -> (String, String, i32) {
    said(introspect(arguments).output().unwrap())
}

/// The same with some bytes on standard input.
fn fed(arguments: &[&str], input: &[u8]) -> (String, String, i32) {
    let mut command = introspect(arguments);
    command
        .stdin(Stdio::piped())
        .stdout(Stdio::piped())
        .stderr(Stdio::piped());
    let mut child = command.spawn().unwrap();
    let mut stdin = child.stdin.take().unwrap();
    let input = input.to_vec();
    // it does not read what is past the limit, so that writing it may fail
    let feeding = std::thread::spawn(move || drop(stdin.write_all(&input)));
    let output = child.wait_with_output().unwrap();
    feeding.join().unwrap();
    said(output)
}

/// A folder of a test's own.
fn folder(name: &str) -> PathBuf {
    let folder = PathBuf::from(env!("CARGO_TARGET_TMPDIR")).join(name);
    let _ = fs::remove_dir_all(&folder);
    fs::create_dir_all(&folder).unwrap();
    folder
}

fn file(name: &str, bytes: &[u8]) -> String {
    let path = folder(name).join("file.xml");
    fs::write(&path, bytes).unwrap();
    path.to_str().unwrap().to_string()
}

#[test]
fn the_page_says_what_it_writes() {
    let page = fs::read_to_string(format!("{ROOT}/docs/introspect.md")).unwrap();
    let mut commands = 0;
    for block in page.split("```console\n").skip(1) {
        let (block, _) = block.split_once("```").unwrap();
        let mut last = None;
        for part in block.split("$ ").skip(1) {
            let (command, wanted) = part.split_once('\n').unwrap();
            if command == "echo $?" {
                let status: i32 = last.expect("a command before it");
                assert_eq!(wanted, format!("{status}\n"));
                continue;
            }
            let arguments: Vec<_> = command.split(' ').collect();
            assert_eq!(arguments[0], "introspect");
            let (stdout, stderr, status) = run(&arguments[1..]);
            let mut all = stderr + &stdout;
            // a cleaned document ends without a line end
            if !all.ends_with('\n') {
                all.push('\n');
            }
            assert_eq!(all, wanted, "{command}");
            last = Some(status);
            commands += 1;
        }
    }
    assert_eq!(commands, 8);
}

#[test]
fn the_antenna_is_shown() {
    let (stdout, stderr, status) = run(&["show", "examples/antenna.xml"]);
    assert_eq!((stderr.as_str(), status), ("", 0));
    let lines = [
        "node /ground/antenna",
        "  # The status of one dish. <em>Angles are in degrees</em>, times in seconds.",
        "  simple-type d Degrees",
        "    # An angle, 0 to 360.",
        "  enum u Mode",
        "    # What the dish is doing.",
        "    value Parked = 0",
        "      # Pointing at the zenith, brakes on.",
        "    value Slewing = 1",
        "    value Tracking = 2",
        "  struct (dd) Direction",
        "    # Where the dish points.",
        "    member d Azimuth, tp:type Degrees",
        "    member d Elevation, tp:type Degrees",
        "      # 0 is the horizon.",
        "  interface org.example.Antenna",
        "    # Pointing.",
        "    mapping a{sv} Readings",
        "      # Sensor name to last reading.",
        "      member s Sensor",
        "      member v Reading",
        "    method Point",
        "      # Turns the dish; answers with the seconds that it will take.",
        "      in (dd) direction, tp:type Direction",
        "        # Where to.",
        "        annotation org.example.Unit = degree",
        "      out u seconds",
        "      annotation org.example.Precondition = \"elevation > 5 & wind < 20\"",
        "    method Park",
        "    method Sensors",
        "      out a{sv}, tp:type Readings",
        "    signal Moved",
        "      # Sent once a second while the dish moves.",
        "      arg (dd) direction, tp:type Direction",
        "      annotation org.example.Rate = \"1 Hz\"",
        "    property u Mode, read, tp:type Mode",
        "      # What it is doing now.",
        "      annotation org.freedesktop.DBus.Property.EmitsChangedSignal = true",
        "    property s Label, readwrite",
        "    property s Passphrase, write",
        "    annotation org.example.Owner = \"the \\\"north\\\" station\"",
        "  interface org.example.Heater",
        "    property q Watts, readwrite",
        "  node feed",
        "    interface org.example.Feed",
        "      method Polarise",
        "        in d angle, tp:type Degrees",
        "  node drive",
    ];
    assert_eq!(stdout.lines().collect::<Vec<_>>(), lines);
}

#[test]
fn several_files_have_their_names() {
    let (stdout, stderr, status) = run(&["show", "examples/damaged.xml", "examples/part.xml"]);
    let line = "examples/part.xml:\nnode org.example.Clock\n";
    assert!(stdout.starts_with("examples/damaged.xml:\n\nexamples/part.xml:\n"));
    assert!(stdout.contains(line));
    assert!(stderr.starts_with("examples/damaged.xml:8:63: error: unknown entity `&when;`\n"));
    assert_eq!(status, 1);
    let (stdout, _, _) = run(&["show", "nothing", "examples/part.xml"]);
    assert!(stdout.starts_with(line));
}

#[test]
fn docstrings_and_names_are_shown_in_one_line() {
    let input = "<node name='a&#10;b'><docstring>\n one \u{1b}[31m\r\n two</docstring><node name=''/></node>";
    let (stdout, _, status) = fed(&["show"], input.as_bytes());
    assert_eq!(
        stdout,
        "node \"a\\nb\"\n  # one \u{fffd}[31m ..\n  node \"\"\n"
    );
    assert_eq!(status, 0);
}

#[test]
fn standard_input_without_a_name_and_by_dash() {
    let input = b"<node>\n \xc3\xa9<x/></node>";
    let wanted = "<stdin>:2:3: warning: unsupported element `<x>` ignored\n \u{e9}<x/></node>\n  ^\n1 file read, 0 refused, 1 warning\n";
    for arguments in [&["check"][..], &["check", "-"], &["check", "--"]] {
        let (stdout, stderr, status) = fed(arguments, input);
        assert_eq!((stdout.as_str(), stderr.as_str(), status), (wanted, "", 0));
    }
}

#[test]
fn each_sort_of_refusal_has_its_place() {
    let cases: [(&[u8], &str); 6] = [
        (b"<node>\n", "<stdin>:2:1: error: missing `</node>`\n"),
        (b"", "<stdin>:1:1: error: missing root element\n"),
        (
            b"<node>\n<a \xff/></node>",
            "<stdin>:2:4: error: not UTF-8\n<a \u{fffd}/></node>\n   ^\n",
        ),
        (
            b"<node>\r<interface name='x'/>",
            "<stdin>:2:2: error: bad name\n<interface name='x'/>\n ^\n",
        ),
        (
            b"<node>\n\t<a x='&q;'/></node>",
            "<stdin>:2:8: error: unknown entity `&q;`\n\t<a x='&q;'/></node>\n\t      ^\n",
        ),
        (
            b"<a x='&\x1b[2J;'/>",
            "<stdin>:1:7: error: unknown entity `&\u{fffd}[2J;`\n<a x='&\u{fffd}[2J;'/>\n      ^\n",
        ),
    ];
    for (input, wanted) in cases {
        let (stdout, stderr, status) = fed(&["check"], input);
        let sums = "0 files read, 1 refused, 0 warnings\n";
        assert_eq!(stdout, format!("{wanted}{sums}"));
        assert_eq!((stderr.as_str(), status), ("", 1));
        let (stdout, stderr, status) = fed(&["show"], input);
        assert_eq!((stdout.as_str(), stderr.as_str(), status), ("", wanted, 1));
    }
}

#[test]
fn the_listing_is_that_of_the_program() {
    let (stdout, stderr, status) = run(&["list", "crates/listing/stdin"]);
    let wanted = fs::read_to_string(format!("{ROOT}/crates/listing/stdout")).unwrap();
    assert_eq!((stdout, stderr.as_str(), status), (wanted, "", 0));
    let (stdout, stderr, status) = run(&["list", "examples/damaged.xml"]);
    assert_eq!(
        (stdout.as_str(), stderr.as_str(), status),
        ("refused 10 296\n", "", 1)
    );
    let (stdout, _, _) = run(&["list", "examples/antenna.xml"]);
    let words: Vec<_> = stdout.lines().map(|line| line.split(' ').count()).collect();
    assert!(stdout.starts_with("ok 36 44 0\n"));
    assert_eq!(words[0], 4);
    assert_eq!(words[1..], [16; 36]);
}

#[test]
fn as_long_as_may_be_and_longer() {
    let padded = |len: usize| [b"<node/>".as_slice(), &vec![b' '; len - 7]].concat();
    let longest = file("longest", &padded(1 << 20));
    assert_eq!(
        run(&["list", &longest]),
        (
            format!("ok 1 0 0\n1{}\n", " 0".repeat(15)),
            String::new(),
            0
        )
    );
    let longer = file("longer", &padded((1 << 20) + 1));
    let refused = ("refused 2 1048576\n".to_string(), String::new(), 1);
    assert_eq!(run(&["list", &longer]), refused);
    assert_eq!(run(&["list", "/dev/zero"]), refused);
    let (stdout, _, status) = fed(&["list"], &padded(3 << 20));
    assert_eq!((stdout, status), (refused.0, 1));
}

#[test]
fn what_cannot_be_read_does_not_stop_the_others() {
    let (stdout, stderr, status) = run(&["check", "nothing", ".", "examples/antenna.xml"]);
    assert_eq!(
        stderr,
        "introspect: cannot read nothing: No such file or directory\n\
         introspect: cannot read .: Is a directory\n"
    );
    assert_eq!(
        stdout,
        "1 file read, 0 refused, 0 warnings, 2 could not be read\n"
    );
    assert_eq!(status, 2);
    let (stdout, stderr, status) = run(&[
        "show",
        "examples/damaged.xml",
        "nothing",
        "examples/part.xml",
    ]);
    assert!(stdout.contains("node org.example.Clock\n"));
    assert!(stderr.ends_with("introspect: cannot read nothing: No such file or directory\n"));
    assert_eq!(status, 2);
    let (stdout, stderr, status) = run(&["list", "nothing"]);
    assert_eq!(stdout, "");
    assert!(stderr.starts_with("introspect: cannot read nothing: "));
    assert_eq!(status, 2);
}

#[test]
fn standard_input_that_cannot_be_read() {
    for verb in ["show", "check", "list"] {
        let mut command = introspect(&[verb]);
        command.stdin(File::open(".").unwrap());
        let (_, stderr, status) = said(command.output().unwrap());
        assert_eq!(
            stderr,
            "introspect: cannot read standard input: Is a directory\n"
        );
        assert_eq!(status, 2);
    }
}

#[test]
fn a_full_disk_is_told() {
    for arguments in [
        &["show", "examples/hinge.xml"][..],
        &["check", "examples/hinge.xml"],
        &["list", "examples/hinge.xml"],
        &["--help"],
        &["--version"],
    ] {
        let mut command = introspect(arguments);
        command.stdout(File::create("/dev/full").unwrap());
        let (_, stderr, status) = said(command.output().unwrap());
        assert_eq!(
            stderr,
            "introspect: cannot write standard output: No space left on device\n"
        );
        assert_eq!(status, 2);
    }
}

#[test]
fn a_closed_pipe_is_told() {
    let methods = "<method name='M'/>".repeat(50_000);
    let input = format!("<node><interface name='a.b'>{methods}</interface></node>");
    let path = file("closed_pipe", input.as_bytes());
    for verb in ["show", "list"] {
        let mut command = introspect(&[verb, &path]);
        command.stdout(Stdio::piped()).stderr(Stdio::piped());
        let mut child = command.spawn().unwrap();
        drop(child.stdout.take());
        let (_, stderr, status) = said(child.wait_with_output().unwrap());
        assert_eq!(
            stderr,
            "introspect: cannot write standard output: Broken pipe\n"
        );
        assert_eq!(status, 2);
    }
}

#[test]
fn help_and_version() {
    let (help, stderr, status) = run(&["--help"]);
    assert!(help.contains("introspect check [--strict] [FILE..]"));
    assert!(help.lines().all(|line| line.len() <= 80));
    assert_eq!((stderr.as_str(), status), ("", 0));
    for arguments in [
        &["-h"][..],
        &["help"],
        &["show", "--help"],
        &["check", "nothing", "-h"],
    ] {
        assert_eq!(run(arguments), (help.clone(), String::new(), 0));
    }
    let version = format!("introspect {}\n", env!("CARGO_PKG_VERSION"));
    assert_eq!(run(&["--version"]), (version.clone(), String::new(), 0));
    assert_eq!(run(&["-V"]), (version, String::new(), 0));
}

#[test]
fn wrong_arguments_are_told() {
    let cases: [(&[&str], &str); 8] = [
        (&[], "a command is missing"),
        (&["shew"], "there is no command `shew`"),
        (&["a\u{1b}b"], "there is no command `a\u{fffd}b`"),
        (&["show", "--place"], "there is no option `--place`"),
        (&["check", "--places"], "there is no option `--places`"),
        (&["show", "--strict"], "there is no option `--strict`"),
        (&["list", "--strict"], "there is no option `--strict`"),
        (&["list", "a", "b"], "list takes one file"),
    ];
    for (arguments, wrong) in cases {
        let wanted = format!("introspect: {wrong}; introspect --help says more\n");
        assert_eq!(run(arguments), (String::new(), wanted, 2));
    }
}

#[test]
fn odd_names_of_files() {
    let folder = folder("odd_names");
    let name = std::ffi::OsStr::from_bytes(b"-\xff\x1b.xml");
    fs::write(folder.join(name), "<node/>").unwrap();
    let mut command = introspect(&["check", "--"]);
    let output = command.arg(name).current_dir(&folder).output().unwrap();
    let (stdout, stderr, status) = said(output);
    assert_eq!(stdout, "1 file read, 0 refused, 0 warnings\n");
    assert_eq!((stderr.as_str(), status), ("", 0));
    fs::write(folder.join(name), "<node>").unwrap();
    let output = command.output().unwrap();
    let (stdout, _, status) = said(output);
    assert!(stdout.starts_with("-\u{fffd}\u{fffd}.xml:1:7: error: missing `</node>`\n"));
    assert_eq!(status, 1);
}

#[test]
fn what_is_cleaned_is_clean() {
    for name in ["antenna", "hinge", "loose", "part"] {
        let (cleaned, _, status) = run(&["clean", &format!("examples/{name}.xml")]);
        assert!(cleaned.starts_with("<node") && cleaned.ends_with('>'));
        assert_eq!(status, 0);
        // it is read without a warning, and cleaned once more it is the same
        let (stdout, _, status) = fed(&["check"], cleaned.as_bytes());
        assert_eq!(stdout, "1 file read, 0 refused, 0 warnings\n");
        assert_eq!(status, 0);
        assert_eq!(
            fed(&["clean"], cleaned.as_bytes()),
            (cleaned, String::new(), 0)
        );
    }
}

#[test]
fn what_is_refused_is_not_cleaned() {
    let (stdout, stderr, status) = run(&["clean", "examples/damaged.xml"]);
    assert!(stderr.starts_with("examples/damaged.xml:8:63: error: unknown entity `&when;`\n"));
    assert_eq!((stdout.as_str(), status), ("", 1));
    let (stdout, stderr, status) = run(&["clean", "examples/hinge.xml", "examples/part.xml"]);
    assert!(stderr.starts_with("introspect: clean takes one file"));
    assert_eq!((stdout.as_str(), status), ("", 2));
}

#[test]
fn no_colours_in_a_pipe() {
    let (stdout, stderr, _) = run(&["show", "examples/hinge.xml", "examples/damaged.xml"]);
    assert!(!stdout.contains('\u{1b}') && !stderr.contains('\u{1b}'));
    let (stdout, _, _) = run(&["check", "examples/hinge.xml", "examples/damaged.xml"]);
    assert!(!stdout.contains('\u{1b}'));
}

#[test]
fn very_many_warnings_in_one_line() {
    let input = format!("<a>{}</a>", "<b/>".repeat(30_000));
    let (stdout, _, status) = fed(&["check"], input.as_bytes());
    assert_eq!(stdout.lines().count(), 3 * 30_000 + 1);
    assert_eq!(
        stdout.lines().last(),
        Some("1 file read, 0 refused, 30000 warnings")
    );
    // no line of it is as long as that of the document
    assert!(stdout.lines().all(|line| line.len() < 240));
    assert_eq!(status, 0);
}

#[test]
fn deep_documents_are_not_indented_without_end() {
    let input = "<node>".repeat(1024) + &"</node>".repeat(1024);
    let (stdout, _, status) = fed(&["show"], input.as_bytes());
    assert_eq!(stdout.lines().count(), 1024);
    assert!(stdout.lines().all(|line| line.len() <= 64 + 4));
    assert_eq!(status, 0);
}

/// Units as bytes, after a byte order mark.
fn utf16(units: impl IntoIterator<Item = u16>, bytes: fn(u16) -> [u8; 2]) -> Vec<u8> {
    let marked = [0xfeff].into_iter().chain(units);
    marked.flat_map(bytes).collect()
}

const ORDERS: [fn(u16) -> [u8; 2]; 2] = [u16::to_be_bytes, u16::to_le_bytes];

#[test]
fn a_file_in_utf16_is_as_its_text() {
    for name in ["antenna", "damaged", "hinge", "part"] {
        let text = fs::read_to_string(format!("{ROOT}/examples/{name}.xml")).unwrap();
        for order in ORDERS {
            let encoded = utf16(text.encode_utf16(), order);
            for verb in ["show", "check", "list", "clean"] {
                assert_eq!(fed(&[verb], &encoded), fed(&[verb], text.as_bytes()));
            }
        }
    }
}

#[test]
fn places_in_a_file_in_utf16() {
    for order in ORDERS {
        let text = "<node>\n\u{e9}\u{1f680}";
        let lone = utf16(text.encode_utf16().chain([0xd800, 0x3c]), order);
        let (stdout, _, status) = fed(&["check"], &lone);
        let wanted = "<stdin>:2:3: error: lone surrogate\n\u{e9}\u{1f680}\u{fffd}<\n  ^\n";
        assert!(stdout.starts_with(wanted), "{stdout}");
        assert_eq!(status, 1);
        let mut odd = utf16(text.encode_utf16(), order);
        odd.push(0);
        let (stdout, _, status) = fed(&["check"], &odd);
        let wanted = "<stdin>:2:3: error: odd number of bytes\n\u{e9}\u{1f680}\n  ^\n";
        assert!(stdout.starts_with(wanted), "{stdout}");
        assert_eq!(status, 1);
    }
}

#[test]
fn a_breach_is_told_only_if_asked_for() {
    let tab = "<node>\n<x\u{c}a='1'/></node>";
    let both = [
        (&["check"][..], "1 file read, 0 refused, 1 warning\n", 0),
        (
            &["check", "--strict"],
            "0 files read, 1 refused, 0 warnings\n",
            1,
        ),
    ];
    for (arguments, sums, wanted) in both {
        let (stdout, stderr, status) = fed(arguments, tab.as_bytes());
        assert!(stdout.ends_with(sums), "{stdout}");
        assert_eq!(
            stdout.starts_with("<stdin>:2:3: error: profile breach\n"),
            wanted == 1
        );
        assert_eq!((stderr.as_str(), status), ("", wanted));
    }
    // what the ordinary entry refuses is refused alike, and what has no breach is read alike
    for name in ["examples/damaged.xml", "examples/hinge.xml"] {
        assert_eq!(run(&["check", "--strict", name]), run(&["check", name]));
    }
}
