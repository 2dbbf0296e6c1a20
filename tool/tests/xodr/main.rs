//! The OpenDRIVE reader: small roads, files of each kind, damaged files, and files made to be slow.
mod cases;
mod contacts;
mod damaged;
mod files;
mod hostile;
mod outlines;
mod plain;

use lanes::map::{Fault, Map};
use lanes::xodr::{self, Choice};
use std::path::PathBuf;
use vorzhyket::sizes::EDGE;

/// Everything but outlines.
const ALL: Choice = Choice { types: None, area: None, edges: true, outlines: false };

/// A file under the tool's folder.
fn file(name: &str) -> Vec<u8> {
    let path = PathBuf::from(env!("CARGO_MANIFEST_DIR")).join(name);
    std::fs::read(&path).unwrap_or_else(|error| panic!("{}: {error}", path.display()))
}

fn read(text: &str) -> Result<Map, Fault> {
    xodr::read(text.as_bytes(), &ALL)
}

/// The edges of a lane row.
fn edges(map: &Map, row: usize) -> [f32; EDGE] {
    map.tables.edges[row * EDGE..][..EDGE].try_into().unwrap()
}

/// Within a hundredth of a millimetre.
#[track_caller]
fn near(got: &[f32], wanted: &[f64]) {
    assert_eq!(got.len(), wanted.len());
    assert!(got.iter().zip(wanted).all(|(g, w)| (f64::from(*g) - w).abs() < 1e-5), "{got:?} is not {wanted:?}");
}
