//! An edge file read once by a plain loop in Rust, to measure an import beside: each line is cut into words, its numbers
//! are read and its label is looked up, and the edges from each vertex are counted.
use std::collections::HashMap;
use std::fs::File;
use std::io::{BufRead, BufReader};
use std::time::Instant;

fn vertex(word: &[u8]) -> Option<u32> {
    let number: u32 = std::str::from_utf8(word).ok()?.parse().ok()?;
    (number < 16_777_216).then_some(number)
}

fn main() {
    let path = std::env::args().nth(1).expect("the edge file");
    let start = Instant::now();
    let mut reader = BufReader::with_capacity(65_536, File::open(path).expect("it is there"));
    let mut labels: HashMap<Vec<u8>, u16> = HashMap::new();
    let mut degrees: Vec<u64> = Vec::new();
    let mut line = Vec::new();
    let mut count = 0;
    while reader.read_until(b'\n', &mut line).expect("a line") > 0 {
        let mut words = line.split(u8::is_ascii_whitespace).filter(|word| !word.is_empty());
        if let (Some(src), Some(dst), Some(label)) = (words.next(), words.next(), words.next()) {
            let (src, dst) = (vertex(src).expect("a vertex"), vertex(dst).expect("a vertex"));
            if !labels.contains_key(label) {
                labels.insert(label.to_vec(), labels.len() as u16);
            }
            let most = src.max(dst) as usize;
            if degrees.len() <= most {
                degrees.resize(most + 1, 0);
            }
            degrees[src as usize] += 1;
            count += 1;
        }
        line.clear();
    }
    let time = start.elapsed().as_micros();
    println!("plain {time} {count} edges, {} vertices, {} labels", degrees.len(), labels.len());
}
