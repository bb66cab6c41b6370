// What the program does on a plan of one stream and a file without punctuations, in plain Rust: the measure of its speed.
// Words: the kind of each column (`i` or `t`, as one word), and the file.

use std::env;
use std::fs::File;
use std::io::{self, BufRead, BufReader, BufWriter, Write};
use std::ops::Range;

const LONGEST: usize = 65_536;
const MOST_LISTED: usize = 1_000;

fn is_blank(byte: u8) -> bool {
    byte == b' ' || byte == b'\t'
}

fn is_skipped(line: &[u8]) -> bool {
    line.iter().find(|byte| !is_blank(**byte)).is_none_or(|byte| *byte == b'#')
}

// Where the quoted part ends that begins here: behind its closing quote.
fn quoted_end(line: &[u8], start: usize) -> Option<usize> {
    let mut at = start + 1;
    loop {
        at += line.get(at..)?.iter().position(|byte| matches!(byte, b'"' | b'\\'))?;
        if line[at] == b'"' {
            return Some(at + 1);
        }
        at += 2;
    }
}

// The cells of a line; false where a quote stays open or there are too many cells.
fn cut(line: &[u8], cells: &mut Vec<Range<usize>>) -> bool {
    cells.clear();
    let mut at = 0;
    while at < line.len() {
        if is_blank(line[at]) {
            at += 1;
            continue;
        }
        let start = at;
        while at < line.len() && !is_blank(line[at]) {
            if line[at] != b'"' {
                at += 1;
                continue;
            }
            match quoted_end(line, at) {
                Some(end) => at = end,
                None => return false,
            }
        }
        cells.push(start..at);
    }
    cells.len() <= 128
}

// 1 for a byte that stands for itself in a canonical text.
static PLAIN: [bool; 256] = {
    let mut table = [true; 256];
    let mut byte = 0;
    while byte < 256 {
        table[byte] = !matches!(byte as u8, b'"' | b'\\' | 0..=31 | 127);
        byte += 1;
    }
    table
};

// The byte that an escape stands for, whose backslash is at this place, and where the escape ends.
fn escaped(bytes: &[u8], at: usize) -> Option<(u8, usize)> {
    match bytes[at + 1..] {
        [byte @ (b'"' | b'\\'), ..] => Some((byte, at + 2)),
        [b'n', ..] => Some((b'\n', at + 2)),
        [b'r', ..] => Some((b'\r', at + 2)),
        [b't', ..] => Some((b'\t', at + 2)),
        [b'x', high, low, ..] => {
            let (high, low) = ((high as char).to_digit(16)?, (low as char).to_digit(16)?);
            Some(((high * 16 + low) as u8, at + 4))
        }
        _ => None,
    }
}

fn put_byte(byte: u8, out: &mut Vec<u8>) {
    match byte {
        b'"' | b'\\' => out.extend_from_slice(&[b'\\', byte]),
        b'\n' => out.extend_from_slice(b"\\n"),
        b'\r' => out.extend_from_slice(b"\\r"),
        b'\t' => out.extend_from_slice(b"\\t"),
        0..=31 | 127 => {
            let digits = b"0123456789abcdef";
            out.extend_from_slice(&[b'\\', b'x', digits[byte as usize / 16], digits[byte as usize % 16]]);
        }
        _ => out.push(byte),
    }
}

// Puts a text, spelled canonically.
fn put_text(cell: &[u8], out: &mut Vec<u8>) -> Option<()> {
    let inner = cell.strip_prefix(b"\"")?.strip_suffix(b"\"")?;
    out.push(b'"');
    let mut at = 0;
    while at < inner.len() {
        let run = inner[at..].iter().position(|byte| !PLAIN[*byte as usize]).unwrap_or(inner.len() - at);
        out.extend_from_slice(&inner[at..at + run]);
        at += run;
        if at < inner.len() {
            match inner[at] {
                b'"' => return None,
                b'\\' => {
                    let (byte, end) = escaped(inner, at)?;
                    put_byte(byte, out);
                    at = end;
                }
                byte => {
                    put_byte(byte, out);
                    at += 1;
                }
            }
        }
    }
    out.push(b'"');
    Some(())
}

// Puts an int, spelled canonically.
fn put_int(cell: &[u8], out: &mut Vec<u8>) -> Option<()> {
    let digits = cell.strip_prefix(b"-").unwrap_or(cell);
    if digits.is_empty() || !digits.iter().all(u8::is_ascii_digit) {
        return None;
    }
    if digits[0] != b'0' && digits.len() <= 18 || cell == b"0" {
        out.extend_from_slice(cell);
    } else {
        let number: i64 = std::str::from_utf8(cell).ok()?.parse().ok()?;
        write!(out, "{number}").ok()?;
    }
    Some(())
}

// Puts the canonical line of a line's tuple, or gives the words of its reject.
fn put_line(line: &[u8], kinds: &[u8], cells: &mut Vec<Range<usize>>, out: &mut Vec<u8>) -> Result<(), String> {
    if !cut(line, cells) || &line[cells[0].clone()] != b"t" {
        return Err("not an element".to_owned());
    }
    if cells.len() - 1 != kinds.len() {
        return Err(format!("arity want {} got {}", kinds.len(), cells.len() - 1));
    }
    out.push(b't');
    for (column, (cell, kind)) in cells[1..].iter().zip(kinds).enumerate() {
        let cell = &line[cell.clone()];
        out.push(b' ');
        let is_text = cell[0] == b'"';
        let put = if is_text { put_text(cell, out) } else { put_int(cell, out) };
        put.ok_or_else(|| format!("bad cell {}", column + 1))?;
        if is_text != (*kind == b't') {
            return Err(format!("wrong kind {}", column + 1));
        }
    }
    out.push(b'\n');
    Ok(())
}

fn main() -> io::Result<()> {
    let words: Vec<String> = env::args().collect();
    let kinds = words[1].as_bytes();
    let mut file = BufReader::with_capacity(1 << 16, File::open(&words[2])?);
    let mut out = BufWriter::with_capacity(1 << 16, io::stdout().lock());
    let (mut piece, mut cells, mut text, mut listed) = (Vec::new(), Vec::new(), Vec::new(), Vec::new());
    let (mut number, mut tuples, mut rejected) = (0, 0, 0);
    loop {
        piece.clear();
        if file.read_until(b'\n', &mut piece)? == 0 {
            break;
        }
        number += 1;
        text.clear();
        let line = piece.strip_suffix(b"\n").unwrap_or(&piece);
        let judged = if line.len() > LONGEST {
            Err("too long".to_owned())
        } else {
            let line = line.strip_suffix(b"\r").unwrap_or(line);
            if is_skipped(line) {
                continue;
            }
            put_line(line, kinds, &mut cells, &mut text)
        };
        match judged {
            Ok(()) => {
                tuples += 1;
                out.write_all(&text)?;
            }
            Err(why) => {
                rejected += 1;
                if listed.len() < MOST_LISTED {
                    listed.push((number, why));
                }
            }
        }
    }
    writeln!(out, "p{}", " *".repeat(kinds.len()))?;
    writeln!(out, "# stream s tuples {tuples} punctuations 0 rejected {rejected}")?;
    for (number, why) in &listed {
        writeln!(out, "# reject s line {number} {why}")?;
    }
    writeln!(out, "# results {tuples} punctuations 1")?;
    out.flush()
}
