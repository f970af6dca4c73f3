//! Calls on a file of arms, one to a line, and what each gives: the result, and the buffer after it. A
//! library of the same calls is held to these lines; [`FORMAT`] says how they are written.

use crate::{
    arm_file::{compact, find, put, take_out, Arm, ARM},
    calls::{bytes, numbers, shown_numbers, whole, written_bytes, written_numbers},
    cases::fnv_1a,
};
use std::fmt;
use std::io::{self, BufRead, Write};

/// The lines of calls and of results, in words for the user.
pub const FORMAT: &str = "\
A sequence is a line with a buffer and a line for each call that is made on it, one space between words:

  file BUFFER
  put NUMBER ARM
  find NUMBER
  take_out NUMBER
  compact

NUMBER is 0 to 255, in decimal. ARM is a list of numbers: the 16 hexadecimal digits of each f64, with a
comma between two, and '-' for an empty list. BUFFER is a list of bytes: two digits each, nothing between,
and '-' for none. Both may have any length. A call finds the buffer as the one before it left it.

For each line one is printed:

  file S bytes B refusal R
  call S.K put refusal R buffer HASH
  call S.K find refusal R arm LIST buffer HASH
  call S.K take_out refusal R buffer HASH
  call S.K compact refusal R buffer HASH

S counts the sequences from 0, K the calls of one. The R of a file is what find gives of number 0 then: 14
where the buffer is valid, or else the refusal of its first block with a fault. B is its length. HASH is the
64-bit FNV-1a hash of all bytes of the buffer after the call, in 16 digits; with the option --bytes the bytes
themselves stand there, as BUFFER is written. LIST has the 39 numbers that find writes, as in ARM: *K
would stand for K in a row that are as they were before, which is a5a5a5a500000000 + i for number i.
";

/// A call on a buffer, with its arguments.
#[derive(Clone, Debug)]
pub enum ArmCall {
    Put { number: u8, arm: Vec<f64> },
    Find { number: u8 },
    TakeOut { number: u8 },
    Compact,
}

/// A buffer and the calls made on it, one after the other.
pub struct Sequence {
    pub buffer: Vec<u8>,
    pub calls: Vec<ArmCall>,
}

/// What a line has.
enum Line {
    File(Vec<u8>),
    Call(ArmCall),
}

impl ArmCall {
    pub fn name(&self) -> &'static str {
        match self {
            ArmCall::Put { .. } => "put",
            ArmCall::Find { .. } => "find",
            ArmCall::TakeOut { .. } => "take_out",
            ArmCall::Compact => "compact",
        }
    }

    /// The refusal, and what find gives besides.
    pub fn run(&self, buffer: &mut [u8]) -> (u32, Option<Arm>) {
        match self {
            ArmCall::Put { number, arm } => (put(buffer, *number, arm), None),
            ArmCall::Find { number } => {
                let (refusal, arm) = find(buffer, *number);
                (refusal, Some(arm))
            }
            ArmCall::TakeOut { number } => (take_out(buffer, *number), None),
            ArmCall::Compact => (compact(buffer), None),
        }
    }
}

/// What a line has, or what is wrong with it.
fn parse(line: &str) -> Result<Line, String> {
    let words: Vec<&str> = line.split(' ').collect();
    let call = match words[..] {
        ["file", buffer] => return Ok(Line::File(bytes(buffer)?)),
        ["put", number, arm] => ArmCall::Put {
            number: whole(number)?,
            arm: numbers(arm)?,
        },
        ["find", number] => ArmCall::Find {
            number: whole(number)?,
        },
        ["take_out", number] => ArmCall::TakeOut {
            number: whole(number)?,
        },
        ["compact"] => ArmCall::Compact,
        [name @ ("file" | "put" | "find" | "take_out" | "compact"), ..] => {
            return Err(format!("{} words are not those of {name}", words.len()))
        }
        _ => return Err(format!("no call '{}'", words[0])),
    };
    Ok(Line::Call(call))
}

/// The call as a line.
impl fmt::Display for ArmCall {
    fn fmt(&self, f: &mut fmt::Formatter) -> fmt::Result {
        let name = self.name();
        match self {
            ArmCall::Put { number, arm } => write!(f, "{name} {number} {}", written_numbers(arm)),
            ArmCall::Find { number } | ArmCall::TakeOut { number } => write!(f, "{name} {number}"),
            ArmCall::Compact => write!(f, "{name}"),
        }
    }
}

/// The sequence as its lines.
impl fmt::Display for Sequence {
    fn fmt(&self, f: &mut fmt::Formatter) -> fmt::Result {
        writeln!(f, "file {}", written_bytes(&self.buffer))?;
        self.calls.iter().try_for_each(|call| writeln!(f, "{call}"))
    }
}

/// How the buffer stands in a line after a call.
#[derive(Clone, Copy, Debug, PartialEq, Eq)]
pub enum Shown {
    Hash,
    Bytes,
}

impl Shown {
    fn of(self, buffer: &[u8]) -> String {
        match self {
            Shown::Hash => format!("{:016x}", fnv_1a(buffer.iter().copied())),
            Shown::Bytes => written_bytes(buffer),
        }
    }
}

/// The sequence that is run: its place, its calls so far, and its buffer as they left it.
struct Running {
    place: usize,
    calls: usize,
    buffer: Vec<u8>,
}

impl Running {
    fn line(&mut self, call: &ArmCall, shown: Shown) -> String {
        let (refusal, arm) = call.run(&mut self.buffer);
        let arm = arm.map_or(String::new(), |arm| {
            let arm: [f64; ARM] = arm.map(f64::from_bits);
            format!(" arm {}", shown_numbers(&arm))
        });
        let (place, at, name) = (self.place, self.calls, call.name());
        self.calls += 1;
        let buffer = shown.of(&self.buffer);
        format!("call {place}.{at} {name} refusal {refusal}{arm} buffer {buffer}")
    }
}

/// A line of results for each line of input, up to the first that is none.
pub fn run_lines(
    input: &mut impl BufRead,
    output: &mut impl Write,
    shown: Shown,
) -> io::Result<()> {
    let mut running: Option<Running> = None;
    for (at, line) in input.lines().enumerate() {
        let wrong = |what: String| {
            io::Error::new(
                io::ErrorKind::InvalidData,
                format!("line {}: {what}", at + 1),
            )
        };
        match parse(&line?).map_err(wrong)? {
            Line::File(buffer) => {
                let place = running.map_or(0, |before| before.place + 1);
                let (length, (refusal, _)) = (buffer.len(), find(&buffer, 0));
                writeln!(output, "file {place} bytes {length} refusal {refusal}")?;
                running = Some(Running {
                    place,
                    calls: 0,
                    buffer,
                });
            }
            Line::Call(call) => {
                let running = running
                    .as_mut()
                    .ok_or_else(|| wrong("a call before the first file".to_string()))?;
                writeln!(output, "{}", running.line(&call, shown))?;
            }
        }
    }
    Ok(())
}

#[cfg(test)]
mod tests {
    use super::*;
    use crate::arm_file::{block_of, Numbered};

    fn printed(input: &str, shown: Shown) -> Vec<String> {
        let mut output = Vec::new();
        run_lines(&mut input.as_bytes(), &mut output, shown).unwrap();
        let text = String::from_utf8(output).unwrap();
        text.lines().map(str::to_string).collect()
    }

    fn failure(input: &str) -> String {
        let done = run_lines(&mut input.as_bytes(), &mut Vec::new(), Shown::Hash);
        done.unwrap_err().to_string()
    }

    #[test]
    fn lines_of_a_sequence() {
        let arm = written_numbers(&[1.5; 39]);
        let empty = "00".repeat(512);
        let held = written_bytes(&block_of(&Numbered {
            number: 3,
            arm: [1.5_f64.to_bits(); 39],
        }));
        let calls = format!("put 3 {arm}\nfind 3\nfind 4\ntake_out 3\ncompact\n");
        let input = format!("file {empty}\n{calls}file -\nput 3 {arm}\n");
        let zeros = written_numbers(&[0.0; 39]);
        assert_eq!(
            printed(&input, Shown::Bytes),
            [
                "file 0 bytes 512 refusal 14".to_string(),
                format!("call 0.0 put refusal 0 buffer {held}"),
                format!("call 0.1 find refusal 0 arm {arm} buffer {held}"),
                format!("call 0.2 find refusal 14 arm {zeros} buffer {held}"),
                format!("call 0.3 take_out refusal 0 buffer {empty}"),
                format!("call 0.4 compact refusal 0 buffer {empty}"),
                "file 1 bytes 0 refusal 14".to_string(),
                "call 1.0 put refusal 15 buffer -".to_string(),
            ]
        );
    }

    #[test]
    fn the_hash_is_fnv_1a_over_the_bytes() {
        let lines = printed("file -\ncompact\nfile 61\ncompact\n", Shown::Hash);
        assert_eq!(
            lines[1],
            "call 0.0 compact refusal 0 buffer cbf29ce484222325"
        );
        assert_eq!(lines[2], "file 1 bytes 1 refusal 1");
        assert_eq!(
            lines[3],
            "call 1.0 compact refusal 1 buffer af63dc4c8601ec8c"
        );
    }

    #[test]
    fn what_is_no_line_is_told() {
        assert_eq!(failure("find 3\n"), "line 1: a call before the first file");
        assert_eq!(
            failure("file -\nfind 256\n"),
            "line 2: '256' is not a whole number"
        );
        assert_eq!(
            failure("file -\nfind\n"),
            "line 2: 1 words are not those of find"
        );
        assert_eq!(
            failure("file 0\n"),
            "line 1: '0' is not 2 hexadecimal digits"
        );
        assert_eq!(failure("file -\nlose 3\n"), "line 2: no call 'lose'");
    }
}
