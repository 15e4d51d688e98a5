//! Packs and values for the tests.
#![allow(dead_code)]

use ink_operators::{Pack, Value};

/// Document 01's sample.
pub const SAMPLE: [u8; 65] = [
    0x01, 0x01, 0x01, 0x02, 0x14, 0x00, 0x0d, 0x00, 0x21, 0x00, 0x0d, 0x00, 0x2e, 0x00, 0x08, 0x00, 0x36, 0x00, 0x0b, 0x00, 0x03, 0x01,
    0x00, 0x00, 0x00, 0x02, 0x00, 0x00, 0x00, 0x03, 0x00, 0x00, 0x00, 0x01, 0x00, 0x00, 0x00, 0x00, 0x00, 0x00, 0x00, 0x01, 0x02, 0x00,
    0x00, 0x00, 0x23, 0x00, 0x21, 0x01, 0x00, 0x00, 0x00, 0x00, 0x21, 0x07, 0x00, 0x00, 0x00, 0x21, 0x00, 0x00, 0x00, 0x00, 0x02,
];

pub const VOID_SLOTS: [Value; 16] = [const { Value::Void }; 16];

/// The bytes of a pack of these definitions, literals and sheets.
pub fn bytes(definitions: &[Vec<i32>], literals: &[(u64, Vec<(u8, i32)>)], sheets: &[Vec<u8>]) -> Vec<u8> {
    let mut bodies: Vec<Vec<u8>> = Vec::new();
    for values in definitions {
        let mut body = vec![values.len() as u8];
        values.iter().for_each(|v| body.extend(v.to_le_bytes()));
        bodies.push(body);
    }
    for (origins, entries) in literals {
        let mut body = origins.to_le_bytes().to_vec();
        for (item, value) in entries {
            body.push(*item);
            body.extend(value.to_le_bytes());
        }
        bodies.push(body);
    }
    bodies.extend(sheets.iter().cloned());
    let mut pack = vec![1, definitions.len() as u8, literals.len() as u8, sheets.len() as u8];
    let mut at = 4 + 4 * bodies.len();
    for body in &bodies {
        pack.extend((at as u16).to_le_bytes());
        pack.extend((body.len() as u16).to_le_bytes());
        at += body.len();
    }
    bodies.into_iter().for_each(|body| pack.extend(body));
    pack
}

pub fn pack(definitions: &[Vec<i32>], literals: &[(u64, Vec<(u8, i32)>)], sheets: &[Vec<u8>]) -> Pack {
    Pack::new(bytes(definitions, literals, sheets)).expect("the pack is well formed")
}

/// Two definitions of three items each, items 0 to 5, values 1 to 3.
pub fn six_items() -> Pack {
    pack(&[vec![1, 2, 3], vec![1, 2, 3]], &[], &[])
}

pub fn int(z: i32) -> Vec<u8> {
    let mut bytes = vec![33];
    bytes.extend(z.to_le_bytes());
    bytes
}

pub fn float(x: f32) -> Vec<u8> {
    let mut bytes = vec![34];
    bytes.extend(x.to_bits().to_le_bytes());
    bytes
}

/// The instructions of a sheet, one after another.
pub fn sheet(parts: &[&[u8]]) -> Vec<u8> {
    parts.concat()
}
