//! Jobs with damaged lines among accepted orders.

use crate::draw::Draw;
use crate::orders::{edgy, sensible};
use crate::valid::choose;
use crate::writer::{order_line, Writer};

type Fields = Vec<Vec<u8>>;

const LIMITS: [&str; 8] = [
    "18446744073709551615",
    "18446744073709551616",
    "99999999999999999999",
    "00000000000000000001",
    "000000000000000000001",
    "018446744073709551615",
    "20000000000000000000",
    "36893488147419103233",
];

const KINDS: [&str; 9] = [
    "11",
    "12",
    "19",
    "100",
    "256",
    "00",
    "010",
    "18446744073709551615",
    "18446744073709551617",
];

const STRANGE: &[u8] = b" \t\r+-.;:/xaZeE\"'_#\0\xff\x80\x7f\x0b\x1f@\n";

/// Damage to whole fields.
fn damage_fields(draw: &mut Draw, fields: &mut Fields) {
    let at = draw.place(fields.len());
    match draw.below(9) {
        0 => fields.insert(at, b"0".to_vec()),
        1 => fields.push(b"1".to_vec()),
        2 => fields.push(Vec::new()),
        3 => fields.insert(at, Vec::new()),
        4 => drop(fields.remove(at)),
        5 => fields[0] = draw.pick(&KINDS).into(),
        6 => fields[at] = draw.pick(&LIMITS).into(),
        7 => {
            let zeros = draw.pick(&[1, 2, 5, 18, 19, 20, 21, 300]);
            fields[at].splice(0..0, vec![b'0'; zeros]);
        }
        _ => fields[at].clear(),
    }
}

/// Damage to single bytes.
fn damage_bytes(draw: &mut Draw, line: &mut Vec<u8>) {
    let at = draw.place(line.len() + 1);
    match draw.below(6) {
        0 => line.clear(),
        1 => line.push(b'\r'),
        2 => line.insert(0, draw.pick(STRANGE)),
        3 if at < line.len() => drop(line.remove(at)),
        4 if at < line.len() => line[at] = draw.below(256) as u8,
        _ => line.insert(at, draw.pick(STRANGE)),
    }
}

/// A line of one byte or one line over and over, about a buffer's length.
fn long_line(draw: &mut Draw, line: &[u8]) -> Vec<u8> {
    let length = draw.pick(&[127, 255, 256, 1023, 4095, 4096, 4097, 8192, 65_537]);
    match draw.below(4) {
        0 => vec![draw.pick(b"09,\0\xff "); length],
        1 => [line, &vec![b'0'; length]].concat(),
        2 => [&vec![b'0'; length], line].concat(),
        _ => [line, b","].concat().repeat(length / (line.len() + 1)),
    }
}

fn damaged_line(draw: &mut Draw, line: Vec<u8>) -> Vec<u8> {
    let mut line = line;
    match draw.below(40) {
        0 => line = long_line(draw, &line),
        1..=24 => {
            let mut fields: Fields = line.split(|&b| b == b',').map(<[u8]>::to_vec).collect();
            damage_fields(draw, &mut fields);
            line = fields.join(&b',');
        }
        _ => damage_bytes(draw, &mut line),
    }
    line
}

/// A readable line of any kind.
fn any_line(draw: &mut Draw, writer: &Writer) -> Vec<u8> {
    match draw.below(4) {
        0 => format!("0,{},{},{}", draw.below(2), draw.below(2), draw.below(2)).into_bytes(),
        1 => format!("10,{}", draw.below(8191)).into_bytes(),
        2 => order_line(edgy(draw, writer.record())),
        _ => order_line(sensible(draw, writer.record())),
    }
}

pub fn job(draw: &mut Draw) -> Vec<u8> {
    let mut writer = Writer::new(false);
    let orders = 400 + draw.below(600);
    let share = draw.pick(&[10, 30, 60]);
    while writer.orders < orders {
        if draw.chance(share) {
            let line = any_line(draw, &writer);
            let line = damaged_line(draw, line);
            for piece in line.split(|&b| b == b'\n') {
                writer.line(piece);
            }
        } else {
            let order = choose(draw, &writer, 12);
            writer.supplied(draw, order);
        }
    }
    writer.finish(draw)
}
