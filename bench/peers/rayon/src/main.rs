//! The jobs of bench/peers.py by rayon: OPERATION BLOCK THREADS TEXT.., where the operation is digest, length or contains.
use rayon::prelude::*;
use sha2::{Digest, Sha256};
use std::io::Write;

const LITERAL: &[u8] = b"77";

fn hexadecimal(bytes: &[u8]) -> Vec<u8> {
    const DIGITS: &[u8; 16] = b"0123456789abcdef";
    bytes
        .iter()
        .flat_map(|byte| [DIGITS[(byte >> 4) as usize], DIGITS[(byte & 15) as usize]])
        .collect()
}

fn value(operation: &str, line: &[u8]) -> Option<Vec<u8>> {
    match operation {
        "digest" => Some(hexadecimal(&Sha256::digest(line))),
        "length" => Some(line.len().to_string().into_bytes()),
        _ if line.windows(LITERAL.len()).any(|part| part == LITERAL) => Some(line.to_vec()),
        _ => None,
    }
}

fn lines(text: &[u8]) -> Vec<&[u8]> {
    text.strip_suffix(b"\n").unwrap_or(text).split(|byte| *byte == b'\n').collect()
}

fn main() -> std::io::Result<()> {
    let words: Vec<String> = std::env::args().collect();
    let [_, operation, block, threads, names @ ..] = words.as_slice() else {
        std::process::exit(2);
    };
    let block: usize = block.parse().expect("a number");
    let threads: usize = threads.parse().expect("a number");
    rayon::ThreadPoolBuilder::new().num_threads(threads).build_global().expect("threads");
    let texts = names.iter().map(std::fs::read).collect::<Result<Vec<_>, _>>()?;
    let results: Vec<Vec<Vec<u8>>> = texts
        .par_iter()
        .map(|text| {
            let lines = lines(text);
            lines.par_iter().with_min_len(block).filter_map(|line| value(operation, line)).collect()
        })
        .collect();
    let mut out = std::io::BufWriter::new(std::io::stdout().lock());
    for (place, values) in results.iter().enumerate() {
        writeln!(out, "job {} finished {}", (b'a' + place as u8) as char, values.len())?;
        for value in values {
            out.write_all(value)?;
            out.write_all(b"\n")?;
        }
    }
    out.flush()
}
