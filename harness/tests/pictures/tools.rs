//! The Netpbm tools and ImageMagick: they read what the library writes, sample by sample, and the library reads what they write.

use crate::calls::{subject, ReadCall, WriteCall};
use crate::cases::{block, header, SIZES};
use hoengtila_harness::random::{seeded, Random};
use hoengtila_harness::subject::{Answered, Subject};
use std::io::Write;
use std::process::{Command, Stdio};

/// `convert` is the name of other programs too.
fn is_there(tool: &str) -> bool {
    let version = Command::new(tool).arg("-version").output();
    let known =
        |text: Vec<u8>| tool != "convert" || String::from_utf8_lossy(&text).contains("ImageMagick");
    version.is_ok_and(|output| known(output.stdout))
}

/// What a tool makes of its input; nothing where the tool is missing.
fn said(tool: &[&str], input: &[u8]) -> Option<Vec<u8>> {
    if !is_there(tool[0]) {
        println!("pictures: {} is missing here, so it was not asked", tool[0]);
        return None;
    }
    let mut child = Command::new(tool[0])
        .args(&tool[1..])
        .stdin(Stdio::piped())
        .stdout(Stdio::piped())
        .stderr(Stdio::null())
        .spawn()
        .expect("the tool starts");
    let mut to = child.stdin.take().expect("a pipe");
    to.write_all(input).expect("the tool reads");
    drop(to);
    let output = child.wait_with_output().expect("the tool ends");
    assert!(output.status.success(), "{tool:?} refuses {input:02x?}");
    Some(output.stdout)
}

/// The samples of a plain graymap (P2) with the maximum value 65535, and its sides.
fn plain(text: &[u8]) -> (u32, u32, Vec<i64>) {
    let text = String::from_utf8_lossy(text);
    let lines = text
        .lines()
        .map(|line| line.split('#').next().unwrap_or(""));
    let words: Vec<&str> = lines.flat_map(|line| line.split_whitespace()).collect();
    assert_eq!(words[0], "P2");
    let numbers: Vec<i64> = words[1..]
        .iter()
        .map(|w| w.parse().expect("a number"))
        .collect();
    assert_eq!(numbers[2], 65535);
    (numbers[0] as u32, numbers[1] as u32, numbers[3..].to_vec())
}

fn written(library: &mut Subject, width: u32, height: u32, residuals: &[i32]) -> Vec<u8> {
    let outcome = library.ask(&WriteCall {
        width,
        height,
        residuals: residuals.to_vec(),
        held: vec![0; 15 + 2 * residuals.len()],
    });
    assert_eq!(outcome.number(), 0);
    outcome.picture().to_vec()
}

/// The residuals of a picture, which has these sides.
fn read(library: &mut Subject, file: Vec<u8>, width: u32, height: u32) -> Vec<i32> {
    let held = vec![0; (width * height) as usize];
    let outcome = library.ask(&ReadCall { file, held });
    assert!(outcome.is_taken(width, height), "{outcome:?}");
    outcome.output
}

/// Every size with a block of its own.
fn blocks(random: &mut Random) -> Vec<(u32, u32, Vec<i32>)> {
    let sides = SIZES.iter().flat_map(|w| SIZES.map(|h| (*w, h)));
    let block = |(w, h): (u32, u32)| (w, h, block(random, (w * h) as usize));
    sides.map(block).collect()
}

/// The tools that print a picture's samples as a plain graymap.
const READERS: [&[&str]; 2] = [
    &["pamtopnm", "-plain"],
    &[
        "convert",
        "pgm:-",
        "-depth",
        "16",
        "-compress",
        "none",
        "pgm:-",
    ],
];

#[test]
fn tools_read_what_is_written() {
    let mut library = subject();
    let mut random = seeded();
    for tool in READERS {
        let mut samples = 0;
        for (width, height, residuals) in blocks(&mut random) {
            let file = written(&mut library, width, height, &residuals);
            let Some(text) = said(tool, &file) else { break };
            let wanted: Vec<i64> = residuals.iter().map(|z| i64::from(*z) + 32768).collect();
            assert_eq!(plain(&text), (width, height, wanted), "{tool:?}");
            samples += residuals.len();
        }
        if samples > 0 {
            println!(
                "pictures: {} reads {samples} samples as they were written",
                tool[0]
            );
        }
    }
}

/// The tools that write a graymap of a plain one: with their own white space, and with a comment.
const WRITERS: [&[&str]; 3] = [
    &["pnmtopnm"],
    &["convert", "pgm:-", "-depth", "16", "pgm:-"],
    &[
        "convert",
        "pgm:-",
        "-depth",
        "16",
        "-set",
        "comment",
        "65535 4 4",
        "pgm:-",
    ],
];

#[test]
fn what_tools_write_is_read() {
    let mut library = subject();
    let mut random = seeded();
    for tool in WRITERS {
        let (mut samples, mut comments) = (0, 0);
        for (width, height, residuals) in blocks(&mut random) {
            let words: Vec<String> = residuals.iter().map(|z| (z + 32768).to_string()).collect();
            let text = format!(
                "P2\n# plain\n{width} {height}\n65535\n{}\n",
                words.join("\n")
            );
            let Some(file) = said(tool, text.as_bytes()) else {
                break;
            };
            comments += usize::from(file[..20.min(file.len())].contains(&b'#'));
            let back = read(&mut library, file, width, height);
            assert_eq!(back, residuals, "{tool:?}");
            samples += residuals.len();
        }
        if samples > 0 {
            println!("pictures: of {tool:?} {samples} samples are read as they were meant, {comments} headers with a comment");
        }
    }
}

/// Headers in any spelling: what the library reads, Netpbm reads.
#[test]
fn netpbm_reads_the_same_headers() {
    let mut library = subject();
    let mut random = seeded();
    let mut files = 0;
    for _ in 0..300 {
        let (width, height) = (random.choose(&SIZES), random.choose(&SIZES));
        let residuals = block(&mut random, (width * height) as usize);
        let mut file = header(&mut random, width, height);
        let samples: Vec<i64> = residuals.iter().map(|z| i64::from(*z) + 32768).collect();
        file.extend(samples.iter().flat_map(|s| (*s as u16).to_be_bytes()));
        let Some(text) = said(READERS[0], &file) else {
            return;
        };
        assert_eq!(plain(&text), (width, height, samples), "{file:02x?}");
        assert_eq!(read(&mut library, file, width, height), residuals);
        files += 1;
    }
    println!("pictures: {files} headers in any spelling are read as Netpbm reads them");
}
