//! The call text, read line by line, and the printed forms.

use g729::Frame;
use g729::harness::Samples;
use std::io::{self, BufRead, Read};

/// The longest well-formed line, without its line feed.
const LONGEST: u64 = 36;

/// The forms of the four kinds: what opens it, the number of payload bytes, what closes it.
const FORMS: [(&str, usize, &str); 4] = [
    ("(frame (voice ", 10, "))"),
    ("(frame (sid ", 2, "))"),
    ("(frame (quiet", 0, "))"),
    ("(frame (lost", 0, "))"),
];

/// One frame of a call: its kind and its payload, at the front.
#[derive(Debug, Clone, Copy, PartialEq, Eq)]
pub struct FrameLine {
    pub kind: usize,
    pub payload: [u8; 10],
}

impl FrameLine {
    pub fn frame(&self) -> Frame<'_> {
        match self.kind {
            0 => Frame::Voice(&self.payload),
            1 => Frame::Sid(self.payload.first_chunk().expect("ten bytes hold two")),
            2 => Frame::NoTx,
            _ => Frame::Erased,
        }
    }

    /// The line, without its line feed.
    pub fn text(&self) -> String {
        let (open, length, close) = FORMS[self.kind];
        let digits = self.payload[..length].iter().map(|b| format!("{b:02x}"));
        format!("{open}{}{close}", digits.collect::<String>())
    }
}

/// The frame of a line without its line feed; `None` if it has none of the four forms.
pub fn parse(line: &[u8]) -> Option<FrameLine> {
    FORMS
        .iter()
        .enumerate()
        .find_map(|(kind, &(open, length, close))| {
            let rest = line.strip_prefix(open.as_bytes())?;
            let digits = rest.strip_suffix(close.as_bytes())?;
            let mut payload = [0; 10];
            hexadecimal(digits, &mut payload[..length])?;
            Some(FrameLine { kind, payload })
        })
}

/// Fills `bytes` from just so many pairs of digits 0-9 and a-f.
pub fn hexadecimal(digits: &[u8], bytes: &mut [u8]) -> Option<()> {
    if digits.len() != 2 * bytes.len() {
        return None;
    }
    for (byte, pair) in bytes.iter_mut().zip(digits.chunks(2)) {
        *byte = digit(pair[0])? << 4 | digit(pair[1])?;
    }
    Some(())
}

fn digit(character: u8) -> Option<u8> {
    match character {
        b'0'..=b'9' => Some(character - b'0'),
        b'a'..=b'f' => Some(character - b'a' + 10),
        _ => None,
    }
}

/// What the next line of a call is.
pub enum Next {
    Frame(FrameLine),
    /// A line of another form, an overlong one, or one without its line feed.
    Malformed,
    End,
}

/// Reads the next line. `line` is room to read it into.
pub fn next(input: &mut impl BufRead, line: &mut Vec<u8>) -> io::Result<Next> {
    line.clear();
    if input.take(LONGEST + 1).read_until(b'\n', line)? == 0 {
        return Ok(Next::End);
    }
    let frame = line.strip_suffix(b"\n").and_then(parse);
    Ok(frame.map_or(Next::Malformed, Next::Frame))
}

/// The whole of a call; the number of the first bad line otherwise.
pub fn read_call(input: &mut impl BufRead) -> io::Result<Result<Vec<FrameLine>, usize>> {
    let (mut call, mut line) = (Vec::new(), Vec::new());
    loop {
        match next(input, &mut line)? {
            Next::Frame(frame) => call.push(frame),
            Next::Malformed => return Ok(Err(call.len() + 1)),
            Next::End => return Ok(Ok(call)),
        }
    }
}

/// `(pcm H)` and a line feed.
pub fn pcm(samples: &Samples) -> [u8; 327] {
    const DIGITS: &[u8; 16] = b"0123456789abcdef";
    let mut form = [0; 327];
    form[..5].copy_from_slice(b"(pcm ");
    for (place, sample) in form[5..325].as_chunks_mut::<4>().0.iter_mut().zip(samples) {
        let word = usize::from(*sample as u16);
        *place = [word >> 12, word >> 8, word >> 4, word].map(|d| DIGITS[d & 15]);
    }
    form[325..].copy_from_slice(b")\n");
    form
}
