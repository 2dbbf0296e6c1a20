//! Maps written again: as they were read, or with the reference lines of some roads reversed.
use crate::form;
use crate::labels;
use crate::map::{Fault, Tables};
use vorzhyket::sizes::ROAD;

/// Marks of the roads that have these names, or the place among the names of the first that no road has.
pub fn marks<'a>(t: &Tables, names: impl Iterator<Item = &'a [u8]>) -> Result<Vec<u32>, usize> {
    let rows = t.road_rows();
    let mut marks = vec![0; t.roads.len() / ROAD];
    for (place, name) in names.enumerate() {
        marks[*rows.get(name).ok_or(place)?] = 1;
    }
    Ok(marks)
}

/// A map in plain text. Where its edges are not counted from 0, 0, a comment says so.
pub fn written(t: &Tables, origin: [f64; 2]) -> Result<Vec<u8>, Fault> {
    if let Some(name) = form::unwritable(t) {
        let what = format!("the name {} has a quotation mark or an end of line that plain text can't have", labels::said(name));
        return Err(Fault { line: None, what });
    }
    let mut out = Vec::new();
    if t.has_edges() && origin != [0.0, 0.0] {
        out.extend(format!("# edges are counted from x {}, y {}\n", origin[0], origin[1]).into_bytes());
    }
    form::write(t, &mut out);
    Ok(out)
}

#[cfg(test)]
mod tests {
    use super::*;
    use vorzhyket::ABSENT;

    /// One road of that name.
    fn road(name: &str) -> Tables {
        let mut roads = vec![0; ROAD];
        roads[..4].copy_from_slice(&[0, name.len() as u32, ABSENT, 0]);
        Tables { text: name.as_bytes().to_vec(), roads, ..Tables::default() }
    }

    #[test]
    fn names_that_plain_text_has_no_word_for() {
        for name in ["a\nb", "a \"b", "\"", "#\""] {
            assert!(written(&road(name), [0.0; 2]).is_err_and(|f| f.what.contains("that plain text can't have")), "{name}");
        }
        for (name, word) in [("a\"b", "a\"b"), ("a b", "\"a b\""), ("", "\"\""), ("a#", "a#")] {
            assert_eq!(written(&road(name), [0.0; 2]), Ok(format!("road {word} sections\n").into_bytes()));
        }
    }

    #[test]
    fn edges_from_afar() {
        let map = form::read(b"lane 1 a 0 1 forward\nedges 0 0 0 0 0 0 0 0 0 0 0 0\n").expect("a map");
        let text = written(&map.tables, [400_000.0, 5_800_000.0]).expect("text");
        assert!(text.starts_with(b"# edges are counted from x 400000, y 5800000\nlane 1 a"));
    }
}
