//! Any sheet, any table, any list of indices and any length, through each C function: a full answer or a number, what lies around each lent list
//! intact, and all of it after a number. QPTR_ROUNDS says how many of each; their shares are seen with `--nocapture`.
mod common;
use common::*;
use qptr::{calls, QPtrChainStep, Step, Table, MOST_MEMBERS, MOST_STEPS, STEP_BYTES, TABLE_WORDS};

fn rounds() -> usize {
    std::env::var("QPTR_ROUNDS").map_or(20_000, |n| n.parse().expect("QPTR_ROUNDS is a number"))
}

/// How often a function answered, refused for want of room, and refused for something else. Each has to occur.
#[derive(Default)]
struct Shares([usize; 3]);

impl Shares {
    fn count(&mut self, answer: Result<usize, u32>) {
        self.0[match answer {
            Ok(_) => 0,
            Err(24) => 1,
            Err(_) => 2,
        }] += 1;
    }

    fn check(&self, function: &str) {
        let [answered, short, refused] = self.0;
        println!("{function}: {answered} answered, {short} short lists, {refused} refused");
        let few = rounds() / 100;
        assert!(answered > few && short > few && refused > few, "{function}: {answered} answered, {short} short lists, {refused} refused");
    }
}

// ---- sheets

const LETTERS: &[u8] = b"0123456789,,,-vs\n\nGBIFVMARSPOUDTEQCLX";

/// A sheet for people with up to three changes, or random bytes.
fn sheet(numbers: &mut Numbers) -> Vec<u8> {
    if numbers.one_in(8) {
        let (len, any) = (numbers.below(200), numbers.one_in(2));
        let mut bytes: Vec<u8> = (0..len).map(|_| if any { numbers.next() as u8 } else { LETTERS[numbers.below(LETTERS.len())] }).collect();
        if numbers.one_in(2) {
            bytes.splice(..0, *b"G,1,1,1,1,1,1\n");
        }
        return bytes;
    }
    let mut bytes = SHEETS[numbers.below(SHEETS.len())].0.to_vec();
    for _ in 0..numbers.below(4) {
        let at = numbers.below(bytes.len() + 1);
        let end = at + numbers.below(bytes.len() - at + 1).min(12);
        let letter = LETTERS[numbers.below(LETTERS.len())];
        match numbers.below(8) {
            0 => drop(bytes.drain(at..end)),
            1 => bytes.insert(at, letter),
            2 => bytes.extend_from_within(at..end),
            3 => bytes.truncate(at),
            4 => drop(bytes.splice(at..end, numbers.word().to_string().into_bytes())),
            // Its last lines once more: questions, mostly.
            5 => bytes.extend_from_within(bytes[..at].iter().rposition(|&b| b == b'\n').map_or(0, |n| n + 1)..),
            6 if numbers.one_in(200) => bytes.resize(65_530 + numbers.below(12), b'\n'),
            _ => bytes.iter_mut().skip(at).take(1).for_each(|b| *b = letter),
        }
    }
    bytes
}

#[test]
fn answer_sheet() {
    let (mut numbers, mut shares) = (Numbers::from(1), Shares::default());
    for _ in 0..rounds() {
        let sheet = Guarded::of(&sheet(&mut numbers), BYTES[0]);
        let room = if numbers.one_in(4) { numbers.below(100) } else { 4096 };
        let answer = full(room, BYTES, &|out| calls::answer_sheet(sheet.list(), out));
        sheet.kept(0);
        // A bad sheet's answer is one line.
        let bad = answer.as_ref().is_ok_and(|line| [b"e,1\n", b"e,2\n", b"e,3\n"].iter().any(|e| line == e));
        shares.count(if bad { Err(1) } else { answer.map(|bytes| bytes.len()) });
    }
    shares.check("qptr_answer_sheet");
}

#[test]
fn read_sheet() {
    let (mut numbers, mut shares) = (Numbers::from(2), Shares::default());
    for _ in 0..rounds() {
        let sheet = Guarded::of(&sheet(&mut numbers), BYTES[0]);
        let room = if numbers.one_in(4) { numbers.below(TABLE_WORDS) } else { TABLE_WORDS + numbers.below(4) };
        let answer = full(room, WORDS, &|table| {
            let types = calls::read_sheet(sheet.list(), table)?;
            assert!(types <= 256 && table[0] == types as u32);
            Ok(TABLE_WORDS)
        });
        sheet.kept(0);
        shares.count(answer.map(|words| words.len()));
    }
    shares.check("qptr_read_sheet");
}

// ---- tables

/// A table, and the questions of its sheet: the letter of each, then its fields, marked 1 where they have a `v`.
struct Asked {
    table: Table,
    questions: Vec<(u8, Vec<(u32, u32)>)>,
}

/// Those of the sheets for people.
fn sheets() -> Vec<Asked> {
    let field = |field: &str| match field.strip_prefix('v') {
        Some(number) => (1, number.parse().unwrap()),
        None => (0, field.parse().unwrap()),
    };
    let asked = |sheet: &[u8]| Asked {
        table: Table::read(sheet).unwrap(),
        questions: (std::str::from_utf8(sheet).unwrap().lines())
            .filter(|line| line.starts_with(['T', 'Q', 'C', 'L', 'X']))
            .map(|line| (line.as_bytes()[0], line.split(',').skip(1).map(field).collect()))
            .collect(),
    };
    SHEETS.iter().map(|(sheet, _)| asked(sheet)).collect()
}

impl Asked {
    /// Its table with up to three words changed, mostly in the rows of its types, members, offsets and layouts; some of another length, some random.
    fn table(&self, numbers: &mut Numbers) -> Guarded<u32> {
        let types = self.table.types() as usize;
        let mut words = self.table.words().to_vec();
        for _ in 0..numbers.below(4) {
            let (part, size) = [(0, 7), (7, 6 * types), (1543, 16), (3591, 16), (4615, 10 * types), (0, TABLE_WORDS)][numbers.below(6)];
            words[part + numbers.below(size)] = numbers.word();
        }
        match numbers.below(16) {
            0 => words.truncate(numbers.below(TABLE_WORDS)),
            1 => words.truncate(4615 + numbers.below(10 * types)),
            2 => words.extend([numbers.word(), numbers.word()]),
            3 => {
                let len = numbers.below(2 * TABLE_WORDS);
                words = (0..len).map(|_| numbers.word()).collect();
            }
            _ => {}
        }
        Guarded::of(&words, WORDS[0])
    }

    /// A question of the sheet, mostly; or so many fields, the first the number of a type. Some fields are changed.
    fn question(&self, numbers: &mut Numbers, letter: u8, fields: usize) -> Vec<(u32, u32)> {
        let there: Vec<_> = self.questions.iter().filter(|(l, _)| *l == letter).collect();
        let mut question = if there.is_empty() || numbers.one_in(4) {
            (0..fields).map(|i| (0, numbers.below(if i == 0 { self.table.types() as usize } else { 4 }) as u32)).collect()
        } else {
            there[numbers.below(there.len())].1.clone()
        };
        while numbers.one_in(3) {
            let at = numbers.below(question.len());
            question[at].1 = if numbers.one_in(4) { numbers.word() } else { numbers.below(12) as u32 };
        }
        question
    }
}

/// Mostly as much as any answer needs.
fn room(numbers: &mut Numbers, most: usize, little: usize) -> usize {
    if numbers.one_in(3) { numbers.below(little) } else { most }
}

/// Rounds with one of the tables each, mostly one whose sheet has questions of the function's letter.
fn over_tables(letter: u8, function: &str, round: impl Fn(&mut Numbers, &Asked) -> Result<usize, u32>) {
    let (mut numbers, mut shares, all) = (Numbers::from(letter.into()), Shares::default(), sheets());
    let asking: Vec<&Asked> = all.iter().filter(|a| a.questions.iter().any(|(l, _)| *l == letter)).collect();
    for _ in 0..rounds() {
        let asked = if numbers.one_in(4) { &all[numbers.below(all.len())] } else { asking[numbers.below(asking.len())] };
        shares.count(round(&mut numbers, asked));
    }
    shares.check(function);
}

/// Indices as bytes; some more of them, some marked otherwise, some cut off.
fn index_bytes(numbers: &mut Numbers, indices: &[(u32, u32)]) -> Guarded<u8> {
    let more = if numbers.one_in(32) { numbers.below(260) } else { 0 };
    let mut bytes = vec![];
    for &(mark, word) in indices.iter().chain(std::iter::repeat_n(&(0, 0), more)) {
        let mark = if numbers.one_in(64) { numbers.word() } else { mark };
        bytes.extend([word.to_le_bytes(), mark.to_le_bytes()].concat());
    }
    if numbers.one_in(32) {
        bytes.truncate(numbers.below(bytes.len() + 1));
    }
    Guarded::of(&bytes, BYTES[0])
}

/// A chain over a table: its op, its pointer, its indices.
fn chain(numbers: &mut Numbers, asked: &Asked) -> (Guarded<u32>, u32, u32, Guarded<u8>) {
    let fields = 2 + numbers.below(5);
    let (table, question) = (asked.table(numbers), asked.question(numbers, b'C', fields));
    let op = if numbers.one_in(2) { question[0].1 } else { [65, 66, 67, 70][numbers.below(4)] };
    let (ptr, indices) = (question[1].1, index_bytes(numbers, &question[2..]));
    (table, op, ptr, indices)
}

#[test]
fn lower_chain() {
    over_tables(b'C', "qptr_lower_chain", |numbers, asked| {
        let (table, op, ptr, indices) = chain(numbers, asked);
        let room = room(numbers, STEP_BYTES * MOST_STEPS, 60);
        let answer = full(room, BYTES, &|steps| {
            calls::lower_chain(table.list(), op, ptr, indices.list(), steps).map(|n| STEP_BYTES * n)
        });
        table.kept(0);
        indices.kept(0);
        answer.map(|steps| steps.len())
    });
}

/// The records are the steps of the bytes, and refused as they are.
#[test]
fn lower_chain_steps() {
    let fills = WORDS.map(|w| QPtrChainStep { op: w, bytes: w as i32, stride: w, length: w, index_kind: w, index: w });
    over_tables(b'C', "qptr_lower_chain_steps", |numbers, asked| {
        let (table, op, ptr, indices) = chain(numbers, asked);
        let room = room(numbers, MOST_STEPS, 3);
        let answer = full(room, fills, &|steps| calls::lower_chain_steps(table.list(), op, ptr, indices.list(), steps));
        table.kept(0);
        indices.kept(0);
        let mut bytes = vec![[0; STEP_BYTES]; room];
        let same = calls::lower_chain(table.list(), op, ptr, indices.list(), bytes.as_flattened_mut());
        let steps: Result<Vec<Step>, u32> = same.map(|n| bytes[..n].iter().map(Step::from_bytes).collect()).map_err(|e| e.number());
        assert_eq!(answer.clone().map(|records| records.into_iter().map(Step::from).collect()), steps);
        answer.map(|records| records.len())
    });
}

#[test]
fn find_components() {
    over_tables(b'Q', "qptr_find_components", |numbers, asked| {
        let (table, question) = (asked.table(numbers), asked.question(numbers, b'Q', 3));
        let room = room(numbers, 2 * MOST_MEMBERS, 2);
        let answer = full(room, WORDS, &|out| calls::find_components(table.list(), question[0].1, question[1].1, question[2].1, out));
        table.kept(0);
        answer.map(|found| found.len())
    });
}

#[test]
fn type_layout() {
    over_tables(b'T', "qptr_type_layout", |numbers, asked| {
        let (table, question) = (asked.table(numbers), asked.question(numbers, b'T', 1));
        let room = room(numbers, 2 * MOST_MEMBERS, 9);
        let answer = full(room, WORDS, &|out| calls::type_layout(table.list(), question[0].1, out));
        table.kept(0);
        answer.map(|words| words.len())
    });
}

#[test]
fn local_variable() {
    over_tables(b'X', "qptr_local_variable", |numbers, asked| {
        let (table, question) = (asked.table(numbers), asked.question(numbers, b'X', 1));
        let room = room(numbers, 9, 3);
        let answer = full(room, WORDS, &|out| calls::local_variable(table.list(), question[0].1, out));
        table.kept(0);
        answer.map(|words| words.len())
    });
}

#[test]
fn array_length() {
    over_tables(b'L', "qptr_array_length", |numbers, asked| {
        let (table, question) = (asked.table(numbers), asked.question(numbers, b'L', 2));
        let room = room(numbers, 9, 3);
        let answer = full(room, WORDS, &|out| calls::array_length(table.list(), question[0].1, question[1].1, out));
        table.kept(0);
        answer.map(|words| words.len())
    });
}
