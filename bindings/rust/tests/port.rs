//! A program written against zbus_xml's accessors, and the same over this crate: what it writes, and
//! how many of its lines changed. `port/before.rs` is not compiled here, since zbus_xml needs crates
//! that are not here.

#[path = "port/after.rs"]
mod after;

const BEFORE: &str = include_str!("port/before.rs");
const AFTER: &str = include_str!("port/after.rs");

#[test]
fn the_antenna() {
    let page = after::page("../../examples/antenna.xml").unwrap();
    assert_eq!(
        page,
        "# /ground/antenna
The status of one dish. <em>Angles are in degrees</em>, times in seconds.
- Degrees is d
- Mode is u, 0 Parked, 1 Slewing, 2 Tracking
- Direction is (dd) of 2
## org.example.Antenna
- Readings is a{sv} from Sensor to Reading
- Point(Direction direction, out u seconds)
  - org.example.Precondition elevation > 5 & wind < 20
- Park()
- Sensors(out Readings _)
- signal Moved(Direction direction)
- u Mode, read only
- s Label, read and write
- s Passphrase, write only
## org.example.Heater
- q Watts, read and write
- feed has 1
- drive has 0
"
    );
}

#[test]
fn the_hinge() {
    let page = after::page("../../examples/hinge.xml").unwrap();
    let wanted = "> tp:enum malformed element `<tp:enum>` ignored: \
                  an enumvalue is missing its `suffix` or `value` attribute (at byte offset 122)";
    assert_eq!(page.lines().last(), Some(wanted));
    assert!(!page.contains("- State is"));
    assert!(page.contains("- Side is y, 0 Port, 1 Starboard\n"));
}

#[test]
fn refusals() {
    let error = after::page("../../examples/damaged.xml").unwrap_err();
    assert_eq!(
        error.to_string(),
        "unknown entity `&when;` (at byte offset 296)"
    );
    assert!(after::page("nothing").is_err());
}

/// How many lines two texts have in common, in the same order.
fn common(a: &[&str], b: &[&str]) -> usize {
    let mut best = vec![0; b.len() + 1];
    for line in a {
        let mut before = 0;
        for (k, other) in b.iter().enumerate() {
            let old = best[k + 1];
            best[k + 1] = if line == other {
                before + 1
            } else {
                old.max(best[k])
            };
            before = old;
        }
    }
    best[b.len()]
}

#[test]
fn the_readme_counts_the_changed_lines() {
    let code = |text: &'static str| -> Vec<&str> {
        let lines = text.lines();
        lines
            .filter(|line| !line.is_empty() && !line.starts_with("//!"))
            .collect()
    };
    let (before, after) = (code(BEFORE), code(AFTER));
    let changed = before.len() - common(&before, &after);
    let readme = include_str!("../README.md");
    let counted = format!("of {} lines {changed} change", before.len());
    assert!(readme.contains(&counted), "{counted}");
    assert_eq!(after.len(), before.len() + 1);
}
