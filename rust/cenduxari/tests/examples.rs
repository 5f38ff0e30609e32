//! The examples tell what the engine answers, and the picture of the README is theirs.

use std::fs;
use std::path::Path;

#[allow(dead_code)]
#[path = "../examples/afternoon.rs"]
mod afternoon;
#[allow(dead_code)]
#[path = "../examples/curve.rs"]
mod curve;

#[test]
fn the_traders_story() {
    let story = afternoon::story().unwrap();
    let told = ["refused, 19: ", "After the close", "accepted, number 1.", "hour 14 is now 50 kWh"];
    let mut rest = story.as_str();
    for words in told {
        rest = rest.split_once(words).unwrap_or_else(|| panic!("{words}: {story}")).1;
    }
}

#[test]
fn the_picture_is_the_engines() {
    let kept = Path::new(env!("CARGO_MANIFEST_DIR")).join("../../docs/curve.svg");
    assert_eq!(fs::read_to_string(kept).unwrap(), curve::picture().unwrap());
}
