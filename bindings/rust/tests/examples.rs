//! Runs the examples, which cargo has built, and compares what they print.
use std::path::{Path, PathBuf};
use std::process::Command;

/// The folder of the built programs: that of this test is its `deps`.
fn built() -> PathBuf {
    let test = std::env::current_exe().expect("this test is a file");
    test.ancestors().nth(2).expect("it lies in a folder of a folder").to_path_buf()
}

fn prints(example: &str, wanted: &str) {
    let ran = Command::new(built().join("examples").join(example)).output().expect("it starts");
    assert!(ran.status.success() && ran.stderr.is_empty(), "{ran:?}");
    let file = Path::new(env!("CARGO_MANIFEST_DIR")).join(wanted);
    assert_eq!(String::from_utf8_lossy(&ran.stdout), std::fs::read_to_string(file).expect("the output is beside the example"));
}

#[test]
fn the_session_prints_its_replies() {
    prints("session", "examples/session.rs.out");
}

#[test]
fn the_cache_prints_what_it_prints_in_c() {
    prints("lru", "../../examples/c/lru.out");
}

#[cfg(feature = "sliced")]
#[test]
fn the_slices_print_their_words_left() {
    prints("slices", "examples/slices.rs.out");
}

#[cfg(feature = "tasks")]
#[test]
fn the_tasks_print_their_quotas() {
    prints("tasks", "examples/tasks.rs.out");
}

#[cfg(all(feature = "images", feature = "alloc"))]
#[test]
fn the_image_prints_its_records() {
    prints("image", "examples/image.rs.out");
}

#[cfg(feature = "large")]
#[test]
fn the_long_object_prints_its_record() {
    prints("large", "examples/large.rs.out");
}
