//! Times chains one by one: `qptr_lower_chain` of libqptr.a over a table that was read once, against the Rust over cached layouts.
//! host/bench/run builds and starts it; its arguments name sheets.
//!
//! Ours: from table, op, pointer's type and index bytes to step bytes in a lent list; "records": to structs in a lent slice.
//! Rust: from op, pointer's type and index values (constants interned) to its list of steps: pointee and cached layout looked up, then
//! `try_lower_access_chain`. "alone" leaves the look-ups out: the layout is at hand. Its steps are dropped within the time.
//! Nothing is parsed or printed in either, and each answer was compared before.
use spirt::qptr::lower::oracle::{self, Chain, LaidOut};
use std::hint::black_box;
use std::time::{Duration, Instant};

unsafe extern "C" {
    fn qptr_read_sheet(sheet: *const u8, sheet_len: usize, table: *mut u32, table_len: usize) -> i64;
    fn qptr_lower_chain(
        table: *const u32,
        table_len: usize,
        op: u32,
        ptr: u32,
        indices: *const u8,
        indices_len: usize,
        steps: *mut u8,
        steps_len: usize,
    ) -> i64;
    fn qptr_lower_chain_steps(
        table: *const u32,
        table_len: usize,
        op: u32,
        ptr: u32,
        indices: *const u8,
        indices_len: usize,
        steps: *mut Record,
        steps_len: usize,
    ) -> i64;
}

/// QPtrChainStep: op, bytes, stride, length, index kind, index.
type Record = [u32; 6];

const TABLE_WORDS: usize = 7175;
const REPETITIONS: usize = 40;

// ---- ours

struct Ours {
    op: u32,
    ptr: u32,
    indices: Vec<u8>,
}

fn ours(chain: &Chain) -> Ours {
    let bytes = |&(mark, word): &(u32, u32)| [word.to_le_bytes(), mark.to_le_bytes()].concat();
    Ours { op: chain.op, ptr: chain.ptr, indices: chain.indices.iter().flat_map(bytes).collect() }
}

fn read(sheet: &[u8], table: &mut [u32]) -> i64 {
    unsafe { qptr_read_sheet(sheet.as_ptr(), sheet.len(), table.as_mut_ptr(), table.len()) }
}

fn lower(table: &[u32], c: &Ours, steps: &mut [u8]) -> i64 {
    let (at, len) = (c.indices.as_ptr(), c.indices.len());
    unsafe { qptr_lower_chain(table.as_ptr(), table.len(), c.op, c.ptr, at, len, steps.as_mut_ptr(), steps.len()) }
}

fn lower_records(table: &[u32], c: &Ours, steps: &mut [Record]) -> i64 {
    let (at, len) = (c.indices.as_ptr(), c.indices.len());
    unsafe { qptr_lower_chain_steps(table.as_ptr(), table.len(), c.op, c.ptr, at, len, steps.as_mut_ptr(), steps.len()) }
}

/// The answer line of document 01.
fn line(steps: &[u8]) -> String {
    let mut line = String::from("c");
    for step in steps.chunks_exact(20) {
        let w: Vec<u32> = step.chunks_exact(4).map(|w| u32::from_le_bytes(w.try_into().unwrap())).collect();
        let index = format!("{}{}", if w[3] == 1 { "v" } else { "" }, w[4]);
        line += &match w[0] {
            1 => format!(",H,{index}"),
            2 => ",B".to_string(),
            3 => format!(",O,{}", w[1] as i32),
            _ => format!(",D,{},{},{index}", w[1], w[2]),
        };
    }
    line
}

fn same(table: &[u32], chains: &[Chain], steps: &mut [u8]) {
    for chain in chains {
        let count = lower(table, &ours(chain), steps);
        assert!(count >= 0 && line(&steps[..20 * count as usize]) == chain.line, "a chain's steps differ from {}", chain.line);
    }
}

// ---- times

/// The least time of each, in ns, over rounds of some milliseconds that take turns.
fn least<const N: usize>(mut all: [&mut dyn FnMut(); N]) -> [f64; N] {
    let calls = all.each_mut().map(|f| {
        let mut calls = 1u32;
        loop {
            let start = Instant::now();
            (0..calls).for_each(|_| f());
            if start.elapsed() >= Duration::from_millis(2) {
                return calls;
            }
            calls *= 2;
        }
    });
    let mut times = [f64::MAX; N];
    for _ in 0..REPETITIONS {
        for i in 0..N {
            let start = Instant::now();
            (0..calls[i]).for_each(|_| all[i]());
            times[i] = times[i].min(start.elapsed().as_nanos() as f64 / f64::from(calls[i]));
        }
    }
    times
}

/// ns a chain: ours, by records, Rust, Rust alone.
fn per_chain(table: &[u32], laid: &LaidOut<'_>, chains: &[Chain]) -> [f64; 4] {
    let mut steps = vec![0; 20 * 256];
    let mut records = vec![[0; 6]; 256];
    same(table, chains, &mut steps);
    let lowered: Vec<Ours> = chains.iter().map(ours).collect();
    let mut by_us = || {
        for c in &lowered {
            black_box(lower(table, black_box(c), &mut steps));
        }
    };
    let mut by_records = || {
        for c in &lowered {
            black_box(lower_records(table, black_box(c), &mut records));
        }
    };
    let mut by_rust = || {
        for c in chains {
            black_box(laid.lower(black_box(c)));
        }
    };
    let mut alone = || {
        for c in chains {
            black_box(laid.lower_alone(black_box(c)));
        }
    };
    least([&mut by_us, &mut by_records, &mut by_rust, &mut alone])
        .map(|ns| ns / chains.len() as f64)
}

fn row(name: &str, [ours, records, rust, alone]: [f64; 4]) {
    println!("{name:42} {ours:10.1} {records:10.1} {rust:10.1} {alone:10.1} {:8.3} {:8.3} {:8.3}", ours / rust, ours / alone, records / ours);
}

// ---- sheets

/// So many types: a float, arrays and structs in turn, each over the one before, and a pointer; 16 chains of so many indices, down to the float.
fn nested(types: usize, indices: usize, unknown: bool) -> String {
    let mut sheet = String::from("G,1,1,1,1,1,1\nF,32\n");
    // 67 has an index for the pointer itself.
    let (op, levels) = if indices > types - 2 { (67, indices - 1) } else { (65, indices) };
    let array = |level: usize| level % 2 == 1;
    for level in 1..types - 1 {
        sheet += &match array(level) {
            true => format!("A,{},4,16\n", level - 1),
            false => format!("S,0,2,0,{}\nD,0,35,0\nD,1,35,16\n", level - 1),
        };
    }
    sheet += &format!("P,12,{levels}\n");
    for chain in 0..16 {
        let index = |i: usize| if unknown { format!(",v{i}") } else { format!(",{}", (chain + i) % 4) };
        let mut text = format!("C,{op},{}", types - 1);
        if op == 67 {
            text += &index(0);
        }
        for level in (1..=levels).rev() {
            text += &if array(level) { index(level) } else { ",1".to_string() };
        }
        sheet += &text;
        sheet.push('\n');
    }
    sheet
}

/// Reads a sheet both ways.
fn with<R>(sheet: &[u8], f: impl FnOnce(&[u32], &LaidOut<'_>, &[Chain]) -> R) -> R {
    let mut table = vec![0; TABLE_WORDS];
    assert!(read(sheet, &mut table) >= 0);
    let rust = oracle::read_sheet(sheet).expect("misread by the oracle");
    let laid = rust.lay_out();
    let chains = laid.chains();
    f(&table, &laid, &chains)
}

/// us to read all sheets and to lower so many chains of theirs, each as often as the others: ours, Rust; of which reading.
fn whole(sheets: &[Vec<u8>], chains: usize) -> [[f64; 2]; 2] {
    let there: usize = sheets.iter().map(|s| with(s, |_, _, chains| chains.len())).sum();
    let turns = chains.div_ceil(there);
    let (mut table, mut steps) = (vec![0; TABLE_WORDS], vec![0; 20 * 256]);
    let mut best = [[f64::MAX; 2]; 2];
    for _ in 0..REPETITIONS {
        let mut times = [[Duration::ZERO; 2]; 2];
        let mut left = [chains; 2];
        for sheet in sheets {
            let start = Instant::now();
            black_box(read(black_box(sheet), &mut table));
            times[0][1] += start.elapsed();
            let start = Instant::now();
            let rust = oracle::read_sheet(black_box(sheet)).unwrap();
            let laid = rust.lay_out();
            times[1][1] += start.elapsed();
            let theirs = laid.chains();
            let lowered: Vec<Ours> = theirs.iter().map(ours).collect();
            let start = Instant::now();
            for c in lowered.iter().cycle().take((turns * lowered.len()).min(left[0])) {
                black_box(lower(&table, black_box(c), &mut steps));
                left[0] -= 1;
            }
            times[0][0] += start.elapsed();
            let start = Instant::now();
            for c in theirs.iter().cycle().take((turns * theirs.len()).min(left[1])) {
                black_box(laid.lower(black_box(c)));
                left[1] -= 1;
            }
            times[1][0] += start.elapsed();
        }
        assert_eq!(left, [0; 2]);
        for side in 0..2 {
            let [lowering, reading] = times[side].map(|t| t.as_nanos() as f64 / 1e3);
            if lowering + reading < best[side][0] {
                best[side] = [lowering + reading, reading];
            }
        }
    }
    best
}

fn main() {
    oracle::note_panics();
    println!("{:42} {:>10} {:>10} {:>10} {:>10} {:>8} {:>8} {:>8}", "ns a chain", "ours", "records", "Rust", "alone", "ratio", "to alone", "records");
    for (indices, counts) in [(2, &[10, 100, 250][..]), (8, &[10, 100, 250]), (64, &[100, 250]), (255, &[256])] {
        for &types in counts {
            for unknown in [false, true] {
                let name = format!("{indices} indices, {types} types, {}", if unknown { "unknown" } else { "constant" });
                let sheet = nested(types, indices, unknown);
                row(&name, with(sheet.as_bytes(), |table, laid, chains| {
                    assert!(chains.len() == 16 && chains.iter().all(|c| c.indices.len() == indices), "{name}");
                    per_chain(table, laid, chains)
                }));
            }
        }
    }
    let sheets: Vec<Vec<u8>> = std::env::args().skip(1).map(|path| std::fs::read(path).expect("a sheet")).collect();
    let mut sums = [0.0; 4];
    let mut count = 0;
    for sheet in &sheets {
        with(sheet, |table, laid, chains| {
            if !chains.is_empty() {
                let times = per_chain(table, laid, chains);
                (0..4).for_each(|i| sums[i] += times[i] * chains.len() as f64);
                count += chains.len();
            }
        });
    }
    row(&format!("{} real modules, {count} chains", sheets.len()), sums.map(|ns| ns / count as f64));
    let [[ours, reading], [rust, its_reading]] = whole(&sheets, 40_000);
    println!("40,000 chains of these with the {} sheets read: ours {ours:.0} us ({reading:.0} reading), Rust {rust:.0} us ({its_reading:.0} reading and laying out): {:.3}", sheets.len(), ours / rust);
}
