//! The realistic sheets: five kinds of network at three sizes.

use std::fs;

const FOLDER: &str = concat!(env!("CARGO_MANIFEST_DIR"), "/../sheets");
const KINDS: [&str; 5] = ["levelling", "pairs", "prisms", "traverse", "triangles"];
const SIZES: [u32; 3] = [16, 32, 64];

pub struct NamedSheet {
    pub name: String,
    pub bytes: Vec<u8>,
}

pub fn all() -> Result<Vec<NamedSheet>, String> {
    let of_kind = |kind| SIZES.map(|size| format!("{kind}-{size}"));
    KINDS.into_iter().flat_map(of_kind).map(read).collect()
}

fn read(name: String) -> Result<NamedSheet, String> {
    let bytes = fs::read(format!("{FOLDER}/{name}.sheet"))
        .map_err(|error| format!("{name}.sheet: {error}"))?;
    Ok(NamedSheet { name, bytes })
}
