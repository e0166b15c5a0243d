//! The job program's lines.

use reference::job::{print, run};

fn printed(input: &[u8]) -> String {
    print(&run(input))
}

/// What one line alone prints, without its number.
fn alone(line: &[u8]) -> String {
    let text = printed(&[line, b"\n"].concat());
    text.strip_prefix("1,").unwrap_or("").trim_end().to_string()
}

#[test]
fn the_listing() {
    let lines = b"10,1\n10,2\n1,0,13,5\n9,0\n9,3\n";
    let expected = "3,0,0,0,0\n4,0,5,0,1\n5,3,0,0,1\n";
    assert_eq!(printed(lines), expected);
    assert_eq!(printed(&lines[..lines.len() - 1]), expected);
}

#[test]
fn ends_of_lines() {
    assert_eq!(printed(b""), "");
    assert_eq!(printed(b"\n"), "1,13,0,0,0\n");
    assert_eq!(printed(b"\n\n"), "1,13,0,0,0\n2,13,0,0,0\n");
    assert_eq!(printed(b"9,0"), "1,3,0,0,0\n");
    assert_eq!(printed(b"9,0\n\n"), "1,3,0,0,0\n2,13,0,0,0\n");
    assert_eq!(printed(b"\n9,0"), "1,13,0,0,0\n2,3,0,0,0\n");
}

#[test]
fn readable_fields() {
    for line in [
        "09,0",
        "00000000000000000009,00000000000000000000",
        "9,15",
        "0009,014",
    ] {
        assert_eq!(alone(line.as_bytes()), "3,0,0,0");
    }
    assert_eq!(alone(b"9,18446744073709551615"), "2,0,0,0");
    assert_eq!(alone(b"0,1,2,18446744073709551615"), "");
    assert_eq!(alone(b"000,1,2,3"), "");
    assert_eq!(alone(b"010,18446744073709551615"), "");
}

const UNREADABLE: &[&str] = &[
    "",
    ",",
    "9",
    "9,",
    ",9",
    "9,,0",
    "9,0,",
    "9,0,0",
    "9,0,0,0",
    "9 ,0",
    " 9,0",
    "9,0 ",
    "9,+0",
    "9,-1",
    "9,0x1",
    "9,1.0",
    "9,\"0\"",
    "9;0",
    "9,0\r",
    "\r",
    "9,\0",
    "0,1,2",
    "0,1,2,3,4",
    "10",
    "10,1,2",
    "1,0,13",
    "1,0,13,5,0",
    "11,0",
    "11,0,0,0",
    "12",
    "18446744073709551615,0,0,0",
    "18446744073709551616,0",
    "9,18446744073709551616",
    "9,99999999999999999999",
    "9,000000000000000000000",
    "000000000000000000009,0",
    "0,1,2,18446744073709551616",
    "10,18446744073709551616",
    "٩,0",
];

#[test]
fn unreadable_lines() {
    for line in UNREADABLE {
        assert_eq!(alone(line.as_bytes()), "13,0,0,0", "{line:?}");
    }
    assert_eq!(alone(b"9,\xff"), "13,0,0,0");
    assert_eq!(alone(&[b'9'; 100_000]), "13,0,0,0");
    assert_eq!(alone(&[b','; 100_000]), "13,0,0,0");
}

#[test]
fn tape_lines_stop_at_512() {
    for line in ["0,1,1,1\n", "10,1\n"] {
        assert_eq!(printed(line.repeat(512).as_bytes()), "");
        let more = printed(line.repeat(514).as_bytes());
        assert_eq!(more, "513,13,0,0,0\n514,13,0,0,0\n");
        let mixed = format!("0,1\n{}10,\n{line}", line.repeat(512));
        assert_eq!(run(mixed.as_bytes()).len(), 3);
    }
    let both = "0,1,1,1\n10,1\n".repeat(512);
    assert_eq!(printed(both.as_bytes()), "");
}

#[test]
fn an_order_sees_the_tape_above_it() {
    let lines = b"10,1\n1,0,13,5\n10,2\n1,0,13,5\n4,1,0,0\n0,1,2,3\n4,1,0,0\n9,1\n";
    let expected = "2,9,0,0,0\n4,0,0,0,0\n5,9,0,0,0\n7,0,0,1,1\n8,0,25,1,2\n";
    assert_eq!(printed(lines), expected);
}

#[test]
fn channels_of_1024_words() {
    let mut lines = String::from("10,1\n10,2\n1,0,61,5\n");
    lines.push_str(&"9,0\n".repeat(1025));
    let rows = run(lines.as_bytes());
    assert_eq!(rows.len(), 1026);
    assert_eq!((rows[1024].refusal, rows[1024].channels), (0, 1024));
    assert_eq!((rows[1025].refusal, rows[1025].channels), (11, 1024));
}

#[test]
fn reading_stops_after_a_million_lines() {
    let lines = "10,1\n".repeat(512) + &"\n".repeat(1_000_000 - 512 - 1);
    assert_eq!(run(lines.as_bytes()).len(), 999_487);
    let last = lines.clone() + "1,0,13,8190\n9,0\n";
    let rows = run(last.as_bytes());
    assert_eq!(rows.len(), 999_488);
    let end = rows[999_487];
    assert_eq!((end.line, end.refusal), (1_000_000, 0));
}

#[test]
fn refusals_keep_the_positions_printed() {
    let lines = b"10,1\n10,2\n1,0,13,5\n0,0,0,0\n4,0,0,0\n9,0\nx\n9,1\n0,9\n";
    let rows = printed(lines);
    let tail = "6,0,25,1,2\n7,13,0,1,2\n8,3,0,1,2\n9,13,0,1,2\n";
    assert!(rows.ends_with(tail), "{rows}");
}
