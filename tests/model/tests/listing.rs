//! Document 01's example script and its listing, and what it says of bad records.

use model::script::{listing, MOST_BYTES};

/// The example's shape record: pool 1, 2 threads, 2 levels, 1 top block, 64 bytes.
const SHAPE: [u8; 11] = [1, 8, 0, 1, 2, 2, 1, 64, 0, 0, 0];

/// The listing as text.
fn listed(script: &[u8]) -> String {
    String::from_utf8(listing(script)).unwrap()
}

/// The example's shape record and these bytes.
fn after_shape(bytes: &[u8]) -> String {
    listed(&[&SHAPE, bytes].concat())
}

/// A listing of the header, the example's shape and these further lines.
fn shape_and(lines: &str) -> String {
    format!("n tag answer detail\n0 1 53 0\n{lines}")
}

#[test]
fn the_example() {
    let (switch, go_on, whole) = ([5, 1, 0, 0], [3, 1, 0, 0], [7, 0, 0]);
    let ask = [2, 9, 0, 0, 16, 0, 0, 0, 0, 0, 0, 0];
    let give = [4, 5, 0, 0, 1, 1, 0, 0];
    let mut script = SHAPE.to_vec();
    script.extend(switch);
    script.extend(ask);
    script.extend(go_on.repeat(4));
    script.extend(whole);
    script.extend(give);
    script.extend(go_on.repeat(2));
    script.extend(whole);
    let lines = "1 5 49 0\n2 2 40 0\n3 3 41 0\n4 3 43 1\n5 3 44 257\n6 3 45 257\n7 7 52 0\n8 4 40 0\n\
                 9 3 47 1\n10 3 48 0\n11 7 51 0\n";
    assert_eq!(listed(&script), shape_and(lines));
}

#[test]
fn empty_and_overlong_input() {
    assert_eq!(listed(&[]), "n tag answer detail\n0 0 17 0\n");
    let overlong = vec![6; MOST_BYTES + 1];
    assert_eq!(listed(&overlong), "n tag answer detail\n0 0 17 65536\n");
}

#[test]
fn input_of_the_most_bytes_is_run() {
    let mut script = SHAPE.to_vec();
    while script.len() < MOST_BYTES - 8 {
        script.extend([6, 0, 0]);
    }
    script.extend([5, 1, 0, 1, 5, 1, 0, 0]);
    assert_eq!(script.len(), MOST_BYTES);
    let text = listed(&script);
    assert_eq!(text.lines().count(), 1 + 1 + (MOST_BYTES - 19) / 3 + 2);
    assert!(text.ends_with(" 5 49 0\n"));
}

#[test]
fn other_tags_and_lengths() {
    assert_eq!(after_shape(&[8, 0, 0, 7, 0, 0]), shape_and("1 8 17 11\n"));
    assert_eq!(after_shape(&[0]), shape_and("1 0 17 11\n"));
    assert_eq!(after_shape(&[7, 0, 0, 3, 2, 0, 0, 0]), shape_and("1 7 51 0\n2 3 17 14\n"));
    assert_eq!(after_shape(&[2, 6, 0, 0, 0, 0, 0, 0, 0]), shape_and("1 2 17 11\n"));
    assert_eq!(listed(&[1, 7, 0, 1, 2, 2, 1, 64, 0, 0]), "n tag answer detail\n0 1 17 0\n");
}

#[test]
fn cut_records() {
    for cut in [&[6][..], &[6, 0], &[5, 1, 0], &[6, 1, 0]] {
        let line = format!("1 {} 17 11\n", cut[0]);
        assert_eq!(after_shape(cut), shape_and(&line), "cut {cut:?}");
    }
}

#[test]
fn tag_1_first_and_only_once() {
    assert_eq!(after_shape(&SHAPE), shape_and("1 1 17 11\n"));
    assert_eq!(listed(&[6, 0, 0]), "n tag answer detail\n0 6 17 0\n");
}

#[test]
fn a_shape_not_allowed_stops_the_run() {
    let mut script = SHAPE.to_vec();
    script[4] = 9;
    script.extend([6, 0, 0]);
    assert_eq!(listed(&script), "n tag answer detail\n0 1 1 0\n");
}

#[test]
fn an_ask_without_a_wait_waits_forever() {
    let ask = [2, 5, 0, 0, 64, 0, 0, 0];
    let go_on = [3, 1, 0, 0];
    let bytes = [&[5, 1, 0, 0], &ask[..], &go_on, &go_on, &go_on, &ask, &go_on, &[5, 1, 0, 0]].concat();
    let lines = "1 5 49 0\n2 2 40 0\n3 3 41 0\n4 3 43 1\n5 3 45 1\n6 2 40 0\n7 3 46 0\n8 5 6 0\n";
    assert_eq!(after_shape(&bytes), shape_and(lines));
}
