//! The stored books and expected lists are what this program makes today.

use second::books::{named, text};
use second::definitions::{book, list};
use second::streams::stored;
use std::fs;
use std::path::Path;

#[test]
fn stored_files_are_up_to_date() {
    let here = Path::new(env!("CARGO_MANIFEST_DIR"));
    for (name, bytes) in named::inputs() {
        assert_eq!(fs::read(here.join("books").join(format!("{name}.book"))).unwrap(), bytes, "{name}");
        assert_eq!(fs::read_to_string(here.join("expected").join(format!("{name}.txt"))).unwrap(), list::list(&bytes), "{name}");
        if let Ok(stored) = book::unpack(&bytes) {
            let words = fs::read_to_string(here.join("books").join(format!("{name}.txt"))).unwrap();
            assert_eq!(text::parse(&words).unwrap(), stored, "{name}");
        }
    }
    assert_eq!(fs::read(here.join("streams").join("stored.stream")).unwrap(), stored::stream());
}

/// FNV-1a, so that a stretch of bytes is known again without a copy of it.
fn fingerprint(bytes: &[u8]) -> u64 {
    bytes.iter().fold(0xcbf2_9ce4_8422_2325, |hash, &byte| (hash ^ byte as u64).wrapping_mul(0x100_0000_01b3))
}

#[test]
fn the_stored_stream_begins_as_it_did_before_returns_came() {
    begins_as(12_835, 0x358_dbe9_882c_a8b9);
}

#[test]
fn the_stored_stream_begins_as_it_did_before_the_new_form_came() {
    begins_as(18_172, 0x9c00_eb85_be66_dc26);
}

#[test]
fn the_stored_stream_begins_as_it_did_before_the_second_limits_counted() {
    begins_as(28_086, 0xa05e_b632_564b_fb0e);
}

#[test]
fn the_stored_stream_begins_as_it_did_before_refusals_had_a_place() {
    begins_as(36_455, 0x85bd_767b_6b72_0501);
}

#[test]
fn the_stored_stream_begins_as_it_did_before_percentages_came() {
    begins_as(44_145, 0x86b5_83a2_58fe_7d9d);
}

#[test]
fn the_stored_stream_begins_as_it_did_before_branches_islanded() {
    begins_as(52_727, 0xba27_922b_268f_edff);
}

#[test]
fn the_stored_stream_begins_as_it_did_before_load_moved() {
    begins_as(55_823, 0x66cd_5cc0_46b1_2beb);
}

/// The stream of then, so many bytes, ended in a bad command of 3 bytes, which stops a stream and so is still the last.
fn begins_as(length: usize, print: u64) {
    let stream = stored::stream();
    assert_eq!(fingerprint(&stream[..length - 3]), print);
    assert!(stream.len() > length && stream.ends_with(b"F\x01\x00"));
}
