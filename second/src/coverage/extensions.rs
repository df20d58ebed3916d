//! The extensions that outcomes of `alone` print.

/// The places of WINDOW, RATE and SPLICE behind EXTENSION, each with its mark.
const INSIDE: [(usize, &str); 3] = [(16, "window"), (17, "piecewise"), (18, "splice")];

const EXTENSION: usize = 15;

/// The marks of what is in a read packet's extension, or of an extension with nothing in it.
pub fn inside(parts: &[&str]) -> Vec<&'static str> {
    let there = |place: usize| parts.get(place).map_or(false, |part| *part != "-");
    let found = INSIDE.iter().filter(|(place, _)| there(*place));
    let mut marks: Vec<&str> = found.map(|(_, mark)| *mark).collect();
    if marks.is_empty() && there(EXTENSION) {
        marks.push("unflagged");
    }
    marks
}
