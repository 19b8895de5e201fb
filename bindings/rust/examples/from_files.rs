//! Reads a core from files and prints it in depth order, though the bags come in any order.
//!
//!     cargo run --example from_files            # the core in examples/bags
//!     cargo run --example from_files -- FOLDER
//!
//! The folder has `core.txt`, a line `bag rows` for each bag from the top downwards, and `bag-N.txt`
//! for bag N, one row a line. A bag of 0 rows is missing and needs no file: where it lies, the gap is
//! told.

use std::collections::{HashMap, VecDeque};
use std::error::Error;
use std::io::{self, Write};
use std::path::{Path, PathBuf};
use std::process::ExitCode;
use std::{env, fs};

use ritsghule::{Output, Scan, Turn};

type Outcome<T> = Result<T, Box<dyn Error>>;

/// A file's text, without the byte order mark that some editors put before it.
fn read_file(path: &Path) -> Outcome<String> {
    let text = fs::read_to_string(path)
        .map_err(|error| format!("{} cannot be read: {error}", path.display()))?;
    Ok(text.trim_start_matches('\u{feff}').to_string())
}

/// The bags and their rows, from the top downwards.
fn read_core(path: &Path) -> Outcome<Vec<(u32, u32)>> {
    let text = read_file(path)?;
    let lines = text
        .lines()
        .enumerate()
        .filter(|(_, line)| !line.trim().is_empty() && !line.trim().starts_with('#'));
    lines
        .map(|(at, line)| bag_and_rows(line).ok_or_else(|| wrong_line(path, at + 1, line)))
        .collect()
}

fn wrong_line(path: &Path, number: usize, line: &str) -> Box<dyn Error> {
    format!(
        "{}, line {number}: expected a bag's number and its rows, found: {line}",
        path.display()
    )
    .into()
}

fn bag_and_rows(line: &str) -> Option<(u32, u32)> {
    let (bag, rows) = line.trim().split_once(char::is_whitespace)?;
    Some((bag.parse().ok()?, rows.trim().parse().ok()?))
}

/// The rows of a bag's file.
fn read_bag(folder: &Path, bag: u32) -> Outcome<Vec<String>> {
    let text = read_file(&folder.join(format!("bag-{bag}.txt")))?;
    Ok(text.lines().map(str::to_string).collect())
}

/// The job: one slot, the bags joined downwards, one split that keeps every row.
fn make_job(bags: &[(u32, u32)]) -> Outcome<Vec<u8>> {
    let count = u32::try_from(bags.len())?;
    let rows = bags
        .iter()
        .try_fold(0_u32, |sum, (_, rows)| sum.checked_add(*rows))
        .ok_or("the core has too many rows")?;
    let mut job = record(*b"SC", &[1]);
    for (bag, rows) in bags {
        job.extend(record(*b"SG", &[*bag, *rows]));
    }
    job.extend(record(*b"CC", &[count]));
    let runs: &[u32] = if rows == 0 { &[0] } else { &[1, 0, rows] };
    job.extend(record(*b"SP", &[&[0, rows], runs].concat()));
    Ok(job)
}

fn record(mark: [u8; 2], fields: &[u32]) -> Vec<u8> {
    mark.into_iter()
        .chain(fields.iter().flat_map(|field| field.to_le_bytes()))
        .collect()
}

/// The readout by depth: how far it is, the bags that came, and the missing ones, each with the row
/// that it lies above, that were not told yet.
struct Readout<W> {
    out: W,
    depth: u32,
    rows: u32,
    came: HashMap<u32, Vec<String>>,
    missing: VecDeque<(u32, u32)>,
}

impl<W: Write> Readout<W> {
    fn new(bags: &[(u32, u32)], out: W) -> Readout<W> {
        let mut missing = VecDeque::new();
        let mut rows = 0;
        for (bag, count) in bags {
            if *count == 0 {
                missing.push_back((rows, *bag));
            }
            rows += count;
        }
        Readout {
            out,
            depth: 0,
            rows,
            came: HashMap::new(),
            missing,
        }
    }

    /// Tells of the bags that are missing from where the readout stands.
    fn tell_missing(&mut self) -> io::Result<()> {
        while let Some((row, bag)) = self.missing.front().filter(|gap| gap.0 <= self.depth) {
            let text = format!("GAP, bag {bag} MISSING (stored with no rows)");
            writeln!(self.out, "{}   {text}", place(*row, self.rows))?;
            self.missing.pop_front();
        }
        Ok(())
    }

    fn print_rows(&mut self, output: &Output) -> io::Result<()> {
        for i in 0..output.rows {
            self.tell_missing()?;
            for column in output.columns() {
                let row = column.first + i;
                let text = &self.came[&column.segment][row as usize];
                let (depth, bag) = (self.depth, column.segment);
                writeln!(self.out, "row {depth:3}   bag {bag} row {row}   {text}")?;
            }
            self.depth += 1;
        }
        Ok(())
    }
}

/// Where a bag without rows lies, by rows that the core has.
fn place(row: u32, rows: u32) -> String {
    match (row > 0, row < rows) {
        (true, true) => format!("between rows {} and {row}", row - 1),
        (true, false) => format!("below row {}", row - 1),
        (false, true) => "above row 0".to_string(),
        (false, false) => "no rows".to_string(),
    }
}

/// Serves the newest read first at each wait, as a store may.
fn scan_folder(folder: &Path, out: impl Write) -> Outcome<()> {
    let bags = read_core(&folder.join("core.txt"))?;
    let mut scan = Scan::open(&make_job(&bags)?)?;
    let mut readout = Readout::new(&bags, out);
    let mut in_flight = Vec::new();
    let mut turn = scan.step()?;
    loop {
        turn = match turn {
            Turn::Read { read, segment } => {
                in_flight.push((read, segment));
                scan.step()?
            }
            Turn::Output(output) => {
                readout.print_rows(&output)?;
                scan.step()?
            }
            Turn::Waiting => {
                let (read, bag) = in_flight.pop().ok_or("the scan waits for no read")?;
                let rows = read_bag(folder, bag)?;
                let count = u32::try_from(rows.len())?;
                readout.came.insert(bag, rows);
                scan.deliver(read, count)
                    .map_err(|refusal| format!("bag-{bag}.txt: {refusal}"))?
            }
            Turn::Done => return Ok(readout.tell_missing()?),
        };
    }
}

/// The core that comes with the crate, whose folder cargo names.
fn sample() -> PathBuf {
    PathBuf::from(env::var_os("CARGO_MANIFEST_DIR").unwrap_or_default()).join("examples/bags")
}

fn main() -> ExitCode {
    let folder = env::args_os().nth(1).map_or_else(sample, PathBuf::from);
    match scan_folder(&folder, io::stdout()) {
        Ok(()) => ExitCode::SUCCESS,
        Err(error) => {
            eprintln!("from_files: {error}");
            ExitCode::FAILURE
        }
    }
}

#[cfg(test)]
mod tests {
    use super::*;

    fn printed(folder: &Path) -> String {
        let mut out = Vec::new();
        scan_folder(folder, &mut out).expect("a core that is read");
        String::from_utf8(out).expect("text")
    }

    /// What is printed of a core whose bags have a file each, bag N with rows N.0, N.1 and so on.
    fn printed_core(name: &str, bags: &[(u32, u32)]) -> String {
        let folder = env::temp_dir().join(format!("from_files-{}-{name}", std::process::id()));
        fs::create_dir_all(&folder).expect("a folder");
        let mut core = String::new();
        for (bag, rows) in bags {
            core += &format!("{bag} {rows}\n");
            let text: String = (0..*rows).map(|row| format!("{bag}.{row}\n")).collect();
            fs::write(folder.join(format!("bag-{bag}.txt")), text).expect("a file");
        }
        fs::write(folder.join("core.txt"), core).expect("a file");
        let text = printed(&folder);
        fs::remove_dir_all(&folder).expect("the folder is there");
        text
    }

    #[test]
    fn the_gap_is_told_where_it_lies() {
        assert_eq!(
            printed(&sample()),
            "row   0   bag 31 row 0   dust 12.1\n\
             row   1   bag 31 row 1   dust 11.8\n\
             row   2   bag 31 row 2   dust 12.4\n\
             between rows 2 and 3   GAP, bag 32 MISSING (stored with no rows)\n\
             row   3   bag 33 row 0   dust 40.7\n\
             row   4   bag 33 row 1   dust 38.2\n\
             row   5   bag 34 row 0   dust 15.0\n\
             row   6   bag 34 row 1   dust 14.4\n\
             row   7   bag 34 row 2   dust 14.9\n\
             row   8   bag 34 row 3   dust 13.6\n"
        );
    }

    #[test]
    fn bags_missing_at_the_top_and_at_the_bottom() {
        assert_eq!(
            printed_core("ends", &[(9, 0), (3, 0), (1, 1), (9, 0)]),
            "above row 0   GAP, bag 9 MISSING (stored with no rows)\n\
             above row 0   GAP, bag 3 MISSING (stored with no rows)\n\
             row   0   bag 1 row 0   1.0\n\
             below row 0   GAP, bag 9 MISSING (stored with no rows)\n"
        );
    }

    #[test]
    fn all_bags_missing() {
        assert_eq!(
            printed_core("none", &[(2, 0), (1, 0)]),
            "no rows   GAP, bag 2 MISSING (stored with no rows)\n\
             no rows   GAP, bag 1 MISSING (stored with no rows)\n"
        );
    }
}
