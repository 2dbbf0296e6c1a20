//! A map read from its file or from standard input, in either form.
use crate::form;
use crate::limits;
use crate::map::Map;
use crate::options::{Command, Options, Source};
use crate::xodr::{self, Choice};
use std::fs;
use std::io::{self, Read};

const BYTE_ORDER_MARK: &[u8] = b"\xef\xbb\xbf";

/// The bytes of a file or of standard input, without a byte order mark.
pub fn bytes(source: &Source) -> Result<Vec<u8>, String> {
    let data = match source {
        Source::File(path) => fs::read(path),
        Source::Standard => standard(),
    };
    let mut data = data.map_err(|e| format!("{source}: {}", reason(&e)))?;
    if data.starts_with(BYTE_ORDER_MARK) {
        data.drain(..BYTE_ORDER_MARK.len());
    }
    Ok(data)
}

fn standard() -> io::Result<Vec<u8>> {
    let mut data = Vec::new();
    io::stdin().lock().read_to_end(&mut data)?;
    Ok(data)
}

/// An error of the system in words, without its number.
pub fn reason(error: &io::Error) -> String {
    let text = error.to_string();
    text.split(" (os error").next().unwrap_or_default().to_string()
}

/// Is it XML, and so OpenDRIVE? So is what begins with a byte order mark of UTF-16.
fn is_xml(data: &[u8]) -> bool {
    matches!(data, [0xff, 0xfe, ..] | [0xfe, 0xff, ..]) || data.trim_ascii_start().first() == Some(&b'<')
}

/// Reads the map that is asked for, within the library's limits.
pub fn read(o: &Options) -> Result<Map, String> {
    let data = bytes(&o.source).map_err(|what| what + if is_no_command(o) { " (nor is it a command)" } else { "" })?;
    let xml = is_xml(&data);
    let map = if xml { open_drive(&data, o) } else { plain(&data, o) }?;
    if let Some(over) = limits::over(&map.tables, o.command.repairs()) {
        let hint = if xml { "; --box or --types takes a part of the map" } else { "" };
        return Err(format!("{}: {over}{hint}", o.source));
    }
    Ok(map)
}

/// Was a word taken for a file that is not there, since it is no command?
fn is_no_command(o: &Options) -> bool {
    matches!(&o.source, Source::File(path) if o.implied && !path.exists())
}

fn open_drive(data: &[u8], o: &Options) -> Result<Map, String> {
    let choice = Choice { types: o.types.clone(), area: o.area, edges: o.edges, outlines: o.command == Command::Draw };
    let map = xodr::read(data, &choice).map_err(|fault| o.source.said(&fault))?;
    if is_empty(&map) {
        return Err(format!("{}: the input has no road, no junction and no lane", o.source));
    }
    Ok(map)
}

fn plain(data: &[u8], o: &Options) -> Result<Map, String> {
    for (given, option) in [(o.types.is_some(), "--types"), (o.area.is_some(), "--box")] {
        if given {
            return Err(format!("{}: {option} is for OpenDRIVE, and this is plain text", o.source));
        }
    }
    let mut map = form::read(data).map_err(|fault| o.source.said(&fault))?;
    if is_empty(&map) {
        return Err(format!("{}: the input is empty", o.source));
    }
    if !o.edges {
        map.tables.edges.clear();
    }
    Ok(map)
}

/// Has the map no row at all?
fn is_empty(map: &Map) -> bool {
    map.tables.roads.is_empty() && map.tables.junctions.is_empty() && map.tables.lanes.is_empty()
}
