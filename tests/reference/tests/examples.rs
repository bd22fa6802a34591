//! The sample spools of ../../examples: the answers, records and fixed forms that are listed for them.

use std::fs;
use std::path::PathBuf;

use reference::ranges::{asked, ServedWires};
use reference::records::NUMBERS;

fn folder() -> PathBuf {
    PathBuf::from(env!("CARGO_MANIFEST_DIR")).join("../../examples")
}

/// The records listed for a sample at a class with a wire part. A list that names no wire part is for 18, and for every other where the sample
/// has no wires.
fn records_listed(file: &str, class: &str, wire: &str) -> Option<String> {
    let spool = fs::read(folder().join(file)).expect(file);
    let wireless = !spool.windows(WIRE.len()).any(|bytes| bytes == WIRE);
    let front = if wire == "18" || wireless { format!(".class{class}") } else { format!(".class{class}-{wire}") };
    fs::read_to_string(folder().join(file.replace(".spool", &front))).ok()
}

const WIRE: &[u8] = b"E_wire:{";

#[test]
fn every_listed_answer_agrees() {
    let listed = fs::read_to_string(folder().join("ANSWERS")).expect("examples/ANSWERS");
    let mut tables = 0;
    for row in listed.lines().skip(1) {
        let cells: Vec<&str> = row.split('\t').collect();
        let [file, class, wire, room, answer, volume, line, count, _why] = cells[..] else { panic!("{row}") };
        let spool = fs::read(folder().join(file)).expect(file);
        let room: usize = room.parse().unwrap();
        let got = reference::read(&spool, asked(class.parse().unwrap(), wire.parse().unwrap()), ServedWires::ALL, room * NUMBERS);
        let said = format!("{} {} {} {}", got.answer, got.volume, got.line, got.count);
        assert_eq!(said, format!("{answer} {volume} {line} {count}"), "{row}");
        if got.answer != 0 {
            assert!(got.lent.iter().all(|&number| number == 0), "{row}");
            continue;
        }
        if let Some(records) = records_listed(file, class, wire) {
            let listed: Vec<i64> = records.split_whitespace().map(|number| number.parse().unwrap()).collect();
            assert_eq!(got.lent[..got.count * NUMBERS], listed, "{row}: other records");
            assert!(got.lent[got.count * NUMBERS..].iter().all(|&number| number == 0), "{row}");
            tables += 1;
        }
    }
    assert!(tables > 0);
}

#[test]
fn every_fixed_form_agrees() {
    let mut forms = 0;
    for entry in fs::read_dir(folder()).unwrap() {
        let path = entry.unwrap().path();
        if path.extension().is_none_or(|ending| ending != "fixed") {
            continue;
        }
        let fixed = fs::read(&path).unwrap();
        let spool = fs::read(path.with_extension("spool")).unwrap();
        let got = reference::rewrite(&spool, ServedWires::ALL, fixed.len());
        assert_eq!((got.answer, got.count), (0, fixed.len()), "{}", path.display());
        assert!(got.lent == fixed, "{}: another fixed form", path.display());
        forms += 1;
    }
    assert!(forms > 0);
}
