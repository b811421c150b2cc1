//! Runs on input that is interrupted, fails or never ends, and on output that fails or takes no
//! byte, at each call.

use std::alloc::Global;
use std::io;
use std::io::{ErrorKind, Read, Write};
use std::process::Abort;
use wast_rows::{RunError, run, sample};

/// The input of the run.
const INPUT: &[u8] = b"1\n27\n12\nx\n";

/// The output of the run.
const OUTPUT: &[u8] =
    b"0061736d01000000\n0061736d0100000001040160000003020100070501016100000a0601040010000b0011046e616d65010401000166040401000174\nfault at 16: import after function\nno row\n";

/// The end of each line of the input, and of its line in the output.
const ENDS: [(usize, usize); 4] = [(2, 17), (5, 122), (8, 157), (10, 164)];

/// More calls than a run makes on these streams.
const MOST: usize = 1000;

/// How a call fails.
#[derive(Clone, Copy)]
enum Failing {
    Read(ErrorKind),
    Write(ErrorKind),
    /// A write takes no byte.
    TakesNone,
    Flush(ErrorKind),
}

/// A stream with at most so many bytes a call. It fails once, after so many calls of one kind.
#[derive(Drop)]
struct Stream<'a> {
    input: &'a [u8],
    output: Vec<u8>,
    piece: usize,
    failing: Failing,
    fails_at: usize,
    calls: usize,
}

impl Stream<'_> {
    /// Returns whether this call is the one that fails.
    fn is_failing(&mut self) -> bool {
        let is_failing = self.calls == self.fails_at;
        self.calls = self.calls.saturating_add(1);
        is_failing
    }
}

impl Read for Stream<'_> {
    fn read(&mut self, buf: &mut [u8]) -> io::Result<usize> {
        if let Failing::Read(kind) = self.failing {
            if self.is_failing() {
                return Err(kind.into());
            }
        }
        let count = self.piece.min(buf.len());
        self.input.read(&mut buf[..count])
    }
}

impl Write for Stream<'_> {
    fn write(&mut self, buf: &[u8]) -> io::Result<usize> {
        if let Failing::Write(kind) = self.failing {
            if self.is_failing() {
                return Err(kind.into());
            }
        }
        if matches!(self.failing, Failing::TakesNone) && self.is_failing() {
            return Ok(0);
        }
        let count = self.piece.min(buf.len());
        self.output.write(&buf[..count])
    }

    fn flush(&mut self) -> io::Result<()> {
        if let Failing::Flush(kind) = self.failing {
            if self.is_failing() {
                return Err(kind.into());
            }
        }
        Ok(())
    }
}

/// Returns how much is written after so much of the input: the lines for its whole lines.
fn answered(read: usize) -> usize {
    let mut written = 0;
    for (end, behind) in &ENDS {
        if *end <= read {
            written = *behind;
        }
    }
    written
}

/// Returns how much is written if a flush fails after so many others: the lines up to this one.
fn flushed(others: usize) -> usize {
    let mut written = 0;
    for (i, end) in ENDS.iter().enumerate() {
        if i <= others {
            written = end.1;
        }
    }
    written
}

/// Checks a run in which the call with this number fails. Returns whether the call was made.
fn is_told(
    rt: &impl Abort,
    alloc: Global,
    failing: Failing,
    piece: usize,
    fails_at: usize,
) -> bool {
    let stream = |input| Stream {
        input,
        output: Vec::new(alloc),
        piece,
        failing,
        fails_at,
        calls: 0,
    };
    let mut reader = stream(INPUT);
    let mut writer = stream(&[]);
    let result = run(alloc, &mut reader, &mut writer, |n| sample(alloc, n));
    let is_made = fails_at < reader.calls.max(writer.calls);
    let read = INPUT.len().saturating_sub(reader.input.len());
    let written = writer.output.len();
    assert!(rt; OUTPUT.starts_with(writer.output.as_slice()));
    let (error, want) = match failing {
        _ if !is_made => (None, OUTPUT.len()),
        Failing::Read(ErrorKind::Interrupted) | Failing::Write(ErrorKind::Interrupted) => {
            (None, OUTPUT.len())
        }
        Failing::Read(_) => (Some(RunError::Read), answered(read)),
        Failing::Write(_) | Failing::TakesNone => (Some(RunError::Write), written),
        Failing::Flush(_) => (Some(RunError::Write), flushed(fails_at)),
    };
    assert!(rt;
        result.err() == error && written == want,
        "{written} at {fails_at} of {piece}"
    );
    assert!(rt; error.is_none() || reader.calls.max(writer.calls) == fails_at.saturating_add(1));
    is_made
}

/// Lets each call of the kind fail in turn, until a run makes no more of them.
fn fail_in_turn(rt: &impl Abort, alloc: Global, failing: Failing, piece: usize) {
    for fails_at in 0..MOST {
        if !is_told(rt, alloc, failing, piece, fails_at) {
            assert!(rt; fails_at > 0);
            return;
        }
    }
    assert!(rt; false, "a run makes more calls");
}

#[test]
fn run_reports_failure_of_each_stream_call(rt: HostRuntime) {
    for failing in [
        Failing::Read(ErrorKind::Other),
        Failing::Read(ErrorKind::Interrupted),
        Failing::Write(ErrorKind::Other),
        Failing::Write(ErrorKind::Interrupted),
        Failing::TakesNone,
        Failing::Flush(ErrorKind::Other),
    ] {
        for piece in [1, 2, 3, 50, 4096] {
            fail_in_turn(&rt, rt.alloc(), failing, piece);
        }
    }
}

/// A reader that is interrupted at each call, so many times, and then at its end.
#[derive(Drop)]
struct Interrupted {
    times: u32,
    reads: u32,
}

impl Read for Interrupted {
    fn read(&mut self, _buf: &mut [u8]) -> io::Result<usize> {
        self.reads = self.reads.saturating_add(1);
        if self.reads > self.times {
            return Ok(0);
        }
        Err(ErrorKind::Interrupted.into())
    }
}

#[test]
fn run_stops_after_a_million_reads(rt: HostRuntime) {
    let alloc = rt.alloc();
    for (times, want) in [
        (999_999, Ok(())),
        (1_000_000, Err(RunError::Read)),
        (u32::MAX, Err(RunError::Read)),
    ] {
        let mut reader = Interrupted { times, reads: 0 };
        let mut output = Vec::new(alloc);
        let result = run(alloc, &mut reader, &mut output, |n| sample(alloc, n));
        assert!(rt; result == want && reader.reads == 1_000_000);
        assert!(rt; output.is_empty());
    }
}
