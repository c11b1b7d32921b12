//! Sheets through the archive: answered as a whole, and read into a table.
mod common;
use common::*;
use qptr::{answer_sheet, calls, Table, TABLE_WORDS};

const SETTING: &[u8] = b"G,1,1,1,1,1,1\n";

fn answered(sheet: &[u8], room: usize) -> Result<Vec<u8>, u32> {
    full(room, BYTES, &|out| calls::answer_sheet(sheet, out))
}

/// All of a table that was read is written.
fn read(sheet: &[u8], room: usize) -> Result<Vec<u32>, u32> {
    full(room, WORDS, &|table| calls::read_sheet(sheet, table).map(|_| TABLE_WORDS))
}

/// One sheet for each of 1, 2 and 3.
fn bad_sheets() -> [(Vec<u8>, u32); 6] {
    let many = |line: &str, n: usize| [SETTING, line.repeat(n).as_bytes()].concat();
    [
        (b"".to_vec(), 1),
        (b"G,1,1,1,1,1,1".to_vec(), 1),
        (b"G,1,1,1,1,1,1\nF,32\nT,1\n".to_vec(), 1),
        (vec![b'G'; 65_537], 2),
        (many("F,32\n", 257), 2),
        (b"G,1,3,1,1,1,1\n".to_vec(), 3),
    ]
}

#[test]
fn sheets_are_answered() {
    for (sheet, answers) in SHEETS {
        assert_eq!(answer_sheet(sheet), answers);
        assert_eq!(answered(sheet, 4096).as_deref(), Ok(answers));
    }
    assert_eq!(answered(SETTING, 0), Ok(vec![]));
}

#[test]
fn long_answers_are_whole() {
    let members = "0,".repeat(1000);
    let sheet = format!("G,1,1,1,1,1,1\nF,32\nS,0,1000,{}\n{}", members.trim_end_matches(','), "T,1\n".repeat(500));
    let out = answer_sheet(sheet.as_bytes());
    let lines: Vec<&[u8]> = out.split_inclusive(|&b| b == b'\n').collect();
    assert_eq!(lines.len(), 500);
    assert!(lines[0].starts_with(b"t,c,0,4000,4,4,0,0,4,8,") && lines[0].ends_with(b",3992,3996\n"));
    assert!(lines.iter().all(|line| line == &lines[0]));
}

#[test]
fn a_bad_sheets_answer_is_one_line() {
    for (sheet, refusal) in bad_sheets() {
        let line = format!("e,{refusal}\n").into_bytes();
        assert_eq!(answer_sheet(&sheet), line);
        assert_eq!(answered(&sheet, 99), Ok(line));
    }
}

#[test]
fn answers_do_not_fit() {
    for (sheet, answers) in SHEETS {
        for room in [0, 1, answers.len() / 2, answers.len() - 1] {
            assert_eq!(answered(sheet, room), Err(24));
        }
    }
}

#[test]
fn sheets_are_read() {
    for ((sheet, _), types) in SHEETS.into_iter().zip([6, 9]) {
        let words = read(sheet, TABLE_WORDS).unwrap();
        assert_eq!(words[0], types);
        assert_eq!(words[1..7], [1, 1, 1, 1, 1, 1]);
        assert_eq!(read(sheet, TABLE_WORDS + 3), Ok(words.clone()));
        let table = Table::read(sheet).unwrap();
        assert_eq!(table.types(), types);
        assert_eq!(table.words(), words);
    }
    assert_eq!(Table::read(SETTING).unwrap().types(), 0);
    assert_eq!(types(&"F,32\n".repeat(256)).types(), 256);
}

#[test]
fn bad_sheets_are_not_read() {
    for (sheet, refusal) in bad_sheets() {
        assert_eq!(read(&sheet, TABLE_WORDS), Err(refusal));
        assert_eq!(read(&sheet, 0), Err(refusal));
        assert_eq!(number(Table::read(&sheet)), refusal);
    }
}

#[test]
fn a_short_table_is_refused() {
    for room in [0, 1, 7, TABLE_WORDS / 2, TABLE_WORDS - 1] {
        assert_eq!(read(EXAMPLE, room), Err(24));
    }
}

/// A sheet that is cut off is good where its last line is whole.
#[test]
fn sheets_of_every_length() {
    for (sheet, _) in SHEETS {
        for n in 0..=sheet.len() {
            let whole = n > 0 && sheet[n - 1] == b'\n';
            assert_eq!(Table::read(&sheet[..n]).map_err(|r| r.number()).err(), (!whole).then_some(1), "{n} bytes");
        }
    }
}
