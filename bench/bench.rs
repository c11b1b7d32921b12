//! Times a whole sheet, bytes to answers: `qptr_answer_sheet` of libqptr.a against the Rust's read, intern, lay out and answer.
//! bench/run builds and starts it; its arguments name sheets.
use spirt::qptr::lower::oracle;
use std::hint::black_box;
use std::time::{Duration, Instant};

unsafe extern "C" {
    fn qptr_answer_sheet(sheet: *const u8, sheet_len: usize, out: *mut u8, out_len: usize) -> i64;
}

/// Bytes written, or minus a refusal's number.
fn answer_sheet(sheet: &[u8], out: &mut [u8]) -> i64 {
    unsafe { qptr_answer_sheet(sheet.as_ptr(), sheet.len(), out.as_mut_ptr(), out.len()) }
}

/// The least time of one call, in ns, over rounds of some milliseconds each.
fn least(mut f: impl FnMut()) -> f64 {
    const ROUND: Duration = Duration::from_millis(8);
    let mut calls = 1u32;
    loop {
        let start = Instant::now();
        (0..calls).for_each(|_| f());
        if start.elapsed() >= ROUND || calls > 1 << 20 {
            break;
        }
        calls *= 2;
    }
    let round = |f: &mut dyn FnMut()| {
        let start = Instant::now();
        (0..calls).for_each(|_| f());
        start.elapsed().as_nanos() as f64 / calls as f64
    };
    (0..7).map(|_| round(&mut f)).fold(f64::MAX, f64::min)
}

/// The types of sheets/lights.sheet, and questions of every letter until the sheet has so many bytes.
fn generated(bytes: usize) -> Vec<u8> {
    let types = "G,1,1,1,1,1,1\nI,32\nF,32\nV,1,3\nS,0,4,2,1,2,0\nD,0,35,0\nD,1,35,12\nD,2,35,16\nD,3,35,28\nR,3,32\nS,1,2,0,4\nD,0,35,0\nD,1,35,16\n\
                 P,12,5\nP,12,3\nP,7,3\n";
    let questions =
        ["T,3", "C,65,6,1,v1,2,0", "C,65,6,1,5", "C,66,6,1,7,3", "L,6,1", "T,5", "C,67,7,v1,1", "X,8", "Q,3,16,28", "C,65,6,1,v2,0,v3", "E,3,4"];
    let mut sheet = types.to_string();
    for question in questions.iter().cycle() {
        if sheet.len() + question.len() + 1 > bytes {
            return sheet.into_bytes();
        }
        sheet.push_str(question);
        sheet.push('\n');
    }
    unreachable!()
}

struct Sum {
    what: &'static str,
    ours: f64,
    theirs: f64,
    ratios: Vec<f64>,
}

fn compare(name: &str, sheet: &[u8], out: &mut [u8], sum: &mut Sum) {
    let n = answer_sheet(sheet, out);
    let rust = oracle::answer_sheet(sheet).expect("misread by the oracle");
    assert!(n >= 0 && &out[..n as usize] == rust.as_bytes(), "{name}: the answers differ");
    let ours = least(|| {
        black_box(answer_sheet(black_box(sheet), out));
    });
    let theirs = least(|| {
        black_box(oracle::answer_sheet(black_box(sheet)));
    });
    println!("{name:28} {:6} {n:7} {:11.1} {:11.1} {:8.3}   {:6.1}", sheet.len(), ours / 1e3, theirs / 1e3, ours / theirs, ours / sheet.len() as f64);
    sum.ours += ours;
    sum.theirs += theirs;
    sum.ratios.push(ours / theirs);
}

fn main() {
    oracle::note_panics();
    let mut out = vec![0; 1 << 22];
    let mut sums = ["real modules", "examples", "generated"].map(|what| Sum { what, ours: 0.0, theirs: 0.0, ratios: vec![] });
    println!("{:28} {:>6} {:>7} {:>11} {:>11} {:>8}   {:>6}", "sheet", "bytes", "answers", "ours, us", "Rust, us", "ratio", "ns/byte");
    for path in std::env::args().skip(1) {
        let sheet = std::fs::read(&path).expect("a sheet");
        let name = path.rsplit('/').next().unwrap();
        compare(name, &sheet, &mut out, &mut sums[if path.contains("bench/") { 0 } else { 1 }]);
    }
    for kb in [1, 4, 16, 64] {
        compare(&format!("generated, {kb} KB"), &generated(kb << 10), &mut out, &mut sums[2]);
    }
    for sum in &mut sums {
        sum.ratios.sort_by(f64::total_cmp);
        let (n, ratios) = (sum.ratios.len(), &sum.ratios);
        println!("{}: {n} sheets, {:.3} of the Rust's time in all; median {:.3}, worst {:.3}", sum.what, sum.ours / sum.theirs, ratios[n / 2], ratios[n - 1]);
    }
    let (ours, theirs) = (sums.iter().map(|s| s.ours).sum::<f64>(), sums.iter().map(|s| s.theirs).sum::<f64>());
    println!("in all: {:.3} of the Rust's time", ours / theirs);
}
