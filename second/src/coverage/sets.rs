//! The sets that packet outcomes print.

/// Whether a finished section of a wanted packet's outcome is let through by no filter.
pub fn nobody(parts: &[&str]) -> bool {
    let sections = number(parts, 2).unwrap_or(0);
    // Places from SECTIONS on are none of the packet's, so a 0 there tells nothing of it.
    let empty = |(place, set): &(usize, &str)| *place < sections && *set == "0";
    changed(parts).map_or(false, |sets| sets.iter().any(empty))
}

/// The sets behind `sets`, each with its place in the list, or nothing where none changed.
fn changed<'a>(parts: &[&'a str]) -> Option<Vec<(usize, &'a str)>> {
    let start = parts.iter().position(|part| *part == "sets")?;
    let (first, last) = (number(parts, start + 1)?, number(parts, start + 2)?);
    let sets = parts[start + 3..].iter().copied();
    Some((first..=last).zip(sets).collect())
}

fn number(parts: &[&str], place: usize) -> Option<usize> {
    parts.get(place)?.parse().ok()
}
