//! Images that nobody here built, with what is expected of them where that lies beside them.

use crate::damage::editions::of_unplanned;
use crate::layout::Layout;
use crate::suites::Numbers;
use std::path::Path;

pub struct Outside {
    pub name: String,
    pub image: Vec<u8>,
    /// The lines of the catalogue, or `REFUSED` and the number: `NAME.rows.txt`, and by the new
    /// rule `NAME.marks.rows.txt`. By the second edition they are those of the root.
    pub rows: Texts,
    /// What the catalogue programs print: `NAME.program.txt` and `NAME.marks.program.txt`.
    pub programs: Texts,
    /// The numbers: `NAME.number.txt` by the old rule, or else what the rows say.
    pub numbers: Numbers,
}

/// What is expected by each rule, and whether the second edition takes the image as the first does.
pub struct Texts {
    old: Option<String>,
    new: Option<String>,
    second: Second,
}

/// What the second edition makes of what the first carries.
#[derive(Clone, Copy)]
enum Second {
    /// Entries that are all absent, or what is not looked at since number 1 or 2 comes before.
    Same,
    /// Entries that break a rule.
    Refused,
    NotKnown,
}

impl Texts {
    /// Those beside an image under these endings.
    fn beside(path: &Path, image: &[u8], [old, new]: [&str; 2]) -> Self {
        let read = |ending| std::fs::read_to_string(path.with_extension(ending)).ok();
        let old = read(old);
        let new = read(new).or_else(|| old.as_deref().and_then(without_marks));
        // That the first edition finds nothing wrong is all that matters here.
        let second = match of_unplanned(image, old.as_deref().and_then(number_of_rows)) {
            Some(3) => Second::Refused,
            Some(_) => Second::Same,
            None => Second::NotKnown,
        };
        Texts { old, new, second }
    }

    pub fn by(&self, layout: Layout) -> Option<&str> {
        let text = if layout.marks { &self.new } else { &self.old };
        match self.second {
            Second::Refused if layout.directories => Some("REFUSED 3\n"),
            Second::NotKnown if layout.directories => None,
            _ => text.as_deref(),
        }
    }
}

/// What the new rule gives where the old one gives this text: on a sound volume no file has the
/// mark, so that every line of a file ends in a hyphen. What the old rule refuses with 4 it may not
/// refuse.
fn without_marks(text: &str) -> Option<String> {
    if text.starts_with("REFUSED") {
        return (text != "REFUSED 4\n").then(|| text.to_string());
    }
    let (volume, files) = text.split_once('\n')?;
    Some([volume, "\n", &files.replace('\n', " -\n")].concat())
}

impl Outside {
    pub fn read(path: &Path) -> Result<Self, String> {
        let name = path.file_name().unwrap_or_default().to_string_lossy().into_owned();
        let image =
            std::fs::read(path).map_err(|error| format!("{}: {}", path.display(), error))?;
        let rows = Texts::beside(path, &image, ["rows.txt", "marks.rows.txt"]);
        let programs = Texts::beside(path, &image, ["program.txt", "marks.program.txt"]);
        let told = std::fs::read_to_string(path.with_extension("number.txt")).ok();
        let numbers = match told.map(|number| number.trim().parse()) {
            Some(Ok(number)) => Numbers::by_old(Some(number), &image),
            Some(Err(error)) => return Err(format!("number of {}: {}", name, error)),
            None => Numbers::each(|layout| number_of_rows(rows.by(layout)?)),
        };
        Ok(Outside { name, image, rows, programs, numbers })
    }
}

/// A sound disk may have the word as its name, and more in its line.
fn number_of_rows(rows: &str) -> Option<u32> {
    let refused = rows.strip_prefix("REFUSED ").and_then(|number| number.trim().parse().ok());
    Some(refused.unwrap_or(0))
}
