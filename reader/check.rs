// The checks from Rust. It prints what check.c prints for the same words, and ends with its status:
// rustc -L PREFIX/lib -o check check.rs
use std::io::{self, Write};
use std::process::exit;

#[repr(C)]
#[derive(Clone, Copy, Default)]
struct Row { doc: u64, lower: u64, upper: u64 }

#[repr(C)]
#[derive(Clone, Copy, Default)]
struct CatalogRow { shard: u64, doc: u64, lower: u64, upper: u64 }

#[repr(C)]
#[derive(Clone, Copy)]
struct Term { word: [u8; 64], size: u32, weight: u32 }

#[repr(C)]
#[derive(Default)]
struct Verdict { status: u32, reason: u32, count: u64, first: u64, second: u64 }

// A slice is passed as a pointer, which is never null, and its length.
#[link(name = "ats_reader")]
extern "C" {
    fn ats_check(proof: *const u8, size: usize, root: &[u8; 32], query: *const u8, length: usize, r: u32, rows: *mut Row,
                 room: usize, verdict: &mut Verdict);
    fn ats_both(proof: *const u8, size: usize, root: &[u8; 32], query: *const u8, length: usize, docs: *mut u32,
                room: usize, verdict: &mut Verdict);
    fn ats_catalog(proof: *const u8, size: usize, root: &[u8; 32], query: *const u8, length: usize, r: u32,
                   rows: *mut CatalogRow, room: usize, verdict: &mut Verdict);
    fn ats_catalog_root(roots: *const u8, size: usize, root: &mut [u8; 32], verdict: &mut Verdict);
    fn ats_text(file: *const u8, size: usize, root: &[u8; 32], doc: u32, verdict: &mut Verdict);
    fn ats_growth(file: *const u8, size: usize, old: &[u8; 32], new: &[u8; 32], verdict: &mut Verdict);
    fn ats_query(query: *const u8, length: usize, terms: *mut Term, room: usize, verdict: &mut Verdict);
    fn ats_line(verdict: &Verdict, text: *mut u8, room: usize, size: &mut usize) -> u32;
}

fn root(digits: &str) -> [u8; 32] {
    let bytes: Vec<u8> = (0..32).map(|i| u8::from_str_radix(&digits[2 * i..2 * i + 2], 16).expect("a root")).collect();
    bytes.try_into().unwrap()
}

// The roots that the lines of a list spell, one after another; or the number of its first bad line.
fn roots(list: &[u8]) -> Result<Vec<u8>, usize> {
    let lines: Vec<&[u8]> = list.strip_suffix(b"\n").unwrap_or(list).split(|&byte| byte == b'\n').collect();
    let is_root = |line: &[u8]| line.len() == 64 && line.iter().all(|byte| b"0123456789abcdef".contains(byte));
    match lines.iter().position(|line| !is_root(line)) {
        _ if lines.len() > 4096 => Err(4097),
        Some(i) => Err(i + 1),
        None => Ok(lines.iter().flat_map(|line| root(std::str::from_utf8(line).unwrap())).collect()),
    }
}

fn main() -> io::Result<()> {
    let words: Vec<String> = std::env::args().skip(1).collect();
    let word = |i: usize| words[i].as_str();
    let number = |i: usize| word(i).parse::<u32>().expect("a number");
    let mut file = if word(0) == "query" { Vec::new() } else { std::fs::read(words.last().unwrap())? };
    if word(0) == "catalog-root" {
        file = roots(&file).unwrap_or_else(|bad| {
            println!("input: list line {bad}");
            exit(4)
        });
    }
    let (mut rows, mut docs) = (vec![Row::default(); 1000], vec![0u32; 65536]);
    let (mut merged, mut computed) = (vec![CatalogRow::default(); 1000], [0; 32]);
    let mut terms = [Term { word: [0; 64], size: 0, weight: 0 }; 32];
    let (at, size, mut verdict, mut out) = (file.as_ptr(), file.len(), Verdict::default(), io::stdout().lock());
    let query = match word(0) { "verify" | "catalog" => word(3), "both" => word(2), _ => word(1) };
    let (text, length) = (query.as_ptr(), query.len());
    // SAFETY: each pointer has the size beside it, and what is written overlaps nothing else.
    unsafe {
        match word(0) {
            "verify" => ats_check(at, size, &root(word(1)), text, length, number(2), rows.as_mut_ptr(), 1000, &mut verdict),
            "both" => ats_both(at, size, &root(word(1)), text, length, docs.as_mut_ptr(), 65536, &mut verdict),
            "catalog" => ats_catalog(at, size, &root(word(1)), text, length, number(2), merged.as_mut_ptr(), 1000,
                                     &mut verdict),
            "catalog-root" => ats_catalog_root(at, size, &mut computed, &mut verdict),
            "fetch" => ats_text(at, size, &root(word(1)), number(2), &mut verdict),
            "growth" => ats_growth(at, size, &root(word(1)), &root(word(2)), &mut verdict),
            _ => ats_query(text, length, terms.as_mut_ptr(), 32, &mut verdict),
        }
    }
    if verdict.status != 0 {
        let (mut line, mut length) = ([0u8; 128], 0);
        unsafe { ats_line(&verdict, line.as_mut_ptr(), line.len(), &mut length) };
        writeln!(out, "{}", String::from_utf8_lossy(&line[..length]))?;
        exit(verdict.status as i32);
    }
    let (first, second) = (verdict.first as usize, verdict.second as usize);
    match word(0) {
        "fetch" => out.write_all(&[&file[first..first + second], b"\n"].concat())?,
        "growth" => writeln!(out, "grown {first} {second}")?,
        "catalog-root" => {
            let digits: String = computed.iter().map(|byte| format!("{byte:02x}")).collect();
            return writeln!(out, "{digits}");
        }
        _ => {}
    }
    for i in 0..verdict.count as usize {
        match word(0) {
            "verify" => writeln!(out, "{} {} {} {}", i + 1, rows[i].doc, rows[i].lower, rows[i].upper)?,
            "both" => writeln!(out, "{}", docs[i])?,
            "catalog" => {
                let CatalogRow { shard, doc, lower, upper } = merged[i];
                writeln!(out, "{} {shard} {doc} {lower} {upper}", i + 1)?
            }
            _ => writeln!(out, "{} {}", String::from_utf8_lossy(&terms[i].word[..terms[i].size as usize]), terms[i].weight)?,
        }
    }
    Ok(())
}
