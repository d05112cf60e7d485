"""The coder of intervals as a program that other programs can ask: `Coder` starts it and hands it requests.

The program is proved and built by `rt run`, once for each state of its sources. This happens in a copy of the crates below the temp
folder, since the repository has no Rattle outside its crates. What is built is kept in `interop/out`, which git ignores.
"""
from __future__ import annotations

import array
import glob
import hashlib
import os
import shutil
import struct
import subprocess
import sys
import tempfile
from typing import NamedTuple

TOP = os.path.dirname(os.path.dirname(os.path.realpath(__file__)))
CRATES_FOLDER = os.path.join(TOP, "crates")
KEPT = os.path.join(TOP, "interop", "out")
NAME = "interval_coder"
CRATES = ("jls_values", "jls_bits", "jls_context", "jls_interval")
SOURCES = ("src", "specs", "proofs")

PROGRAM = """\
//! Encodes and decodes intervals as standard input asks, and says how long each call took.
//!
//! A request is a letter, E or D; the precision, MAXVAL, T1, T2, T3, RESET, the width, the components and the rows of
//! one component, in 1, 2, 2, 2, 2, 2, 2, 1 and 4 bytes; and the length of its body in 4 bytes, with the body. An
//! answer is a letter, the nanoseconds and the length of its body in 8 bytes each, and the body. Bodies are samples of
//! 2 bytes each (of E, and of L) or pieces (of D, and of P); where an answer is a fault, its body is empty.
#![tactic(auto)]

ghost use Rattle.std.specs.Prelude.{◌+◌, ◌<◌, length};

use jls_interval::{PieceFault, decode_interval, encode_interval, fits};
use jls_values::Params;
use std::alloc::{AllocError, Global};
use std::io;
use std::io::{Read, Write};
use std::time::{Duration, Instant};

const PIECE: u8 = b'P';

const LINES: u8 = b'L';

const LONG: u8 = b'+';

const BROKEN: u8 = b'-';

const REFUSED: u8 = b'?';

const MOST_SAMPLES: u64 = 1 << 28;

#[derive(Drop)]
struct Interval {
    params: Params,
    width: u16,
    components: u8,
    rows: u32,
}

#[derive(Drop)]
struct Answer {
    letter: u8,
    took: Duration,
    body: Vec<u8>,
}

fn samples_of(alloc: Global, body: &[u8]) -> Result<Vec<u16>, AllocError> {
    let mut samples = Vec::new(alloc);
    for sample in body.chunks_exact(2) {
        samples.push(u16::from_be_bytes([sample[0], sample[1]]))?;
    }
    Ok(samples)
}

fn lines_of(alloc: Global, width: u16, samples: &[u16]) -> Result<Vec<&[u16]>, AllocError> {
    let mut lines = Vec::new(alloc);
    for line in samples.chunks_exact(usize::from(width.max(1))) {
        lines.push(line)?;
    }
    Ok(lines)
}

fn body_of(alloc: Global, lines: &[Vec<u16>]) -> Result<Vec<u8>, AllocError> {
    let mut body = Vec::new(alloc);
    for line in lines {
        for sample in line {
            body.extend_from_slice(&sample.to_be_bytes())?;
        }
    }
    Ok(body)
}

fn refusal(alloc: Global) -> Answer {
    Answer {
        letter: REFUSED,
        took: Duration::ZERO,
        body: Vec::new(alloc),
    }
}

fn encode(rt: &HostRuntime, asked: &Interval, body: &[u8]) -> io::Result<Answer> {
    let alloc = rt.alloc();
    let samples = samples_of(alloc, body)?;
    let lines = lines_of(alloc, asked.width, &samples)?;
    if !fits(&asked.params, asked.width, asked.components, &lines) {
        return Ok(refusal(alloc));
    }
    let start = Instant::now(rt)?;
    let body = encode_interval(alloc, &asked.params, asked.width, asked.components, &lines)?;
    let took = start.elapsed(rt)?;
    Ok(Answer {
        letter: PIECE,
        took,
        body,
    })
}

fn decode(rt: &HostRuntime, asked: &Interval, piece: &[u8]) -> io::Result<Answer> {
    let alloc = rt.alloc();
    let Interval {
        params,
        width,
        components,
        rows,
    } = asked;
    let samples = u64::from(*width) * u64::from(*components) * u64::from(*rows);
    if samples == 0 || samples > MOST_SAMPLES || *components > 4 {
        return Ok(refusal(alloc));
    }
    let start = Instant::now(rt)?;
    let read = decode_interval(alloc, params, *width, *components, *rows, piece);
    let took = start.elapsed(rt)?;
    let (letter, body) = match read {
        Ok(lines) => (LINES, body_of(alloc, &lines)?),
        Err(PieceFault::Long) => (LONG, Vec::new(alloc)),
        Err(PieceFault::Broken) => (BROKEN, Vec::new(alloc)),
        Err(PieceFault::OutOfMemory) => return Err(AllocError.into()),
    };
    Ok(Answer { letter, took, body })
}

fn number_at(head: &[u8], at: usize) -> u16
    requires { at + 1 < length head.now }
{
    u16::from_be_bytes([head[at], head[at + 1]])
}

fn long_number_at(head: &[u8], at: usize) -> u32
    requires { at + 3 < length head.now }
{
    u32::from_be_bytes([head[at], head[at + 1], head[at + 2], head[at + 3]])
}

fn answer_to<R: Read>(rt: &HostRuntime, letter: u8, input: &mut R) -> io::Result<Answer> {
    let mut head = [0u8; 22];
    input.read_exact(&mut head)?;
    let mut body = vec![in rt.alloc(); 0u8; long_number_at(&head, 18) as usize]?;
    input.read_exact(&mut body)?;
    let Ok(params) = Params::new(
        head[0],
        number_at(&head, 1),
        number_at(&head, 3),
        number_at(&head, 5),
        number_at(&head, 7),
        number_at(&head, 9),
    ) else {
        return Ok(refusal(rt.alloc()));
    };
    let width = number_at(&head, 11);
    let rows = long_number_at(&head, 14);
    let asked = Interval {
        params,
        width,
        components: head[13],
        rows,
    };
    match letter {
        b'E' => encode(rt, &asked, &body),
        _ => decode(rt, &asked, &body),
    }
}

fn main(rt: HostRuntime) -> io::Result<()> {
    let mut input = rt.stdin();
    let mut output = rt.stdout();
    for _ in 0..u64::MAX {
        let mut letter = [0u8];
        if input.read(&mut letter)? == 0 {
            break;
        }
        let Answer { letter, took, body } = answer_to(&rt, letter[0], &mut input)?;
        let nanoseconds = u64::try_from(took.as_nanos()).unwrap_or(u64::MAX);
        output.write_all(&[letter])?;
        output.write_all(&nanoseconds.to_be_bytes())?;
        output.write_all(&(body.len() as u64).to_be_bytes())?;
        output.write_all(&body)?;
    }
    Ok(())
}
"""


class Answer(NamedTuple):
    """`kind` is piece, lines, long, broken, or refused where no interval was asked for. `body` is a piece or the samples of all lines."""

    kind: str
    nanoseconds: int
    body: bytes | array.array


KINDS = {b"P": "piece", b"L": "lines", b"+": "long", b"-": "broken", b"?": "refused"}


class Coder:
    """The program while it runs, with these variables more. `params` are precision, MAXVAL, T1, T2, T3 and RESET, 0 for the default."""

    def __init__(self, variables=None):
        told = {**os.environ, **(variables or {})}
        self.child = subprocess.Popen([built()], stdin=subprocess.PIPE, stdout=subprocess.PIPE, env=told)

    def encode(self, params, width, components, samples):
        """`samples` is an array of type H with those of all lines, row by row and in a row by component."""
        rows = len(samples) // (width * components)
        return self.ask(b"E", params, width, components, rows, most_significant_first(samples).tobytes())

    def decode(self, params, width, components, rows, piece):
        answer = self.ask(b"D", params, width, components, rows, piece)
        if answer.kind != "lines":
            return answer
        return answer._replace(body=most_significant_first(array.array("H", answer.body)))

    def ask(self, letter, params, width, components, rows, body):
        self.child.stdin.write(letter + struct.pack(">B5HHBII", *params, width, components, rows, len(body)) + body)
        self.child.stdin.flush()
        head = self.child.stdout.read(17)
        if len(head) < 17:
            sys.exit(f"the coder ended with status {self.child.wait()}")
        letter, nanoseconds, length = struct.unpack(">cQQ", head)
        return Answer(KINDS[letter], nanoseconds, self.child.stdout.read(length))


def most_significant_first(samples):
    """The samples with their bytes turned from this machine's order to that of the program, or back."""
    samples = samples[:]
    if sys.byteorder == "little":
        samples.byteswap()
    return samples


def built(name=NAME, text=PROGRAM, crates=CRATES, libraries="jls_values jls_interval"):
    """The path of a program of this name and text over these libraries, which stand on `crates`. It is built first where it is not there or
    older than its sources."""
    program = os.path.join(KEPT, f"{name}-{key(text, crates)}")
    if not os.path.exists(program):
        if shutil.which("rt") is None:
            sys.exit("the command 'rt' of the Rattle toolchain is not on the PATH")
        print(f"building and proving the program {name}, which can take minutes", file=sys.stderr)
        os.makedirs(KEPT, exist_ok=True)
        for old in glob.glob(os.path.join(KEPT, f"{name}-*")):
            os.remove(old)
        with tempfile.TemporaryDirectory() as folder:
            made = build(folder, name, text, crates, libraries)
            os.replace(shutil.copy(made, program + ".new"), program)
    return program


def key(text, crates):
    """A hash of all that a program is made of: its text, and the crates' sources."""
    made = hashlib.sha256(text.encode())
    parts = [f"{crate}/{source}/**" for crate in crates for source in SOURCES]
    for name in sorted(name for part in parts for name in glob.glob(part, root_dir=CRATES_FOLDER, recursive=True)):
        path = os.path.join(CRATES_FOLDER, name)
        if os.path.isfile(path):
            with open(path, "rb") as file:
                made.update(name.encode() + b"\0" + hashlib.sha256(file.read()).digest())
    return made.hexdigest()[:16]


def build(folder, name, text, crates, libraries):
    """A program, built in a copy of the crates with one crate more. What was checked before, in `out`, is copied too."""
    for crate in crates:
        shutil.copytree(os.path.join(CRATES_FOLDER, crate), os.path.join(folder, "crates", crate), symlinks=True)
    with open(os.path.join(TOP, "crates.txt")) as file:
        lines = [line for line in file if line.split(":")[0] in crates]
    with open(os.path.join(folder, "crates.txt"), "w") as file:
        file.writelines([*lines, f"{name}: {libraries}\n"])
    crate = os.path.join(folder, "crates", name)
    for source in SOURCES:
        os.makedirs(os.path.join(crate, source))
    open(os.path.join(crate, "specs", "Lib.antt"), "w").close()
    with open(os.path.join(crate, "src", "main.rt"), "w") as file:
        file.write(text)
    done = subprocess.run(["rt", "run"], cwd=crate, stdin=subprocess.DEVNULL, stdout=subprocess.PIPE, stderr=subprocess.STDOUT)
    # The program itself is run too, and may refuse to have no input.
    program = os.path.join(crate, "out", name)
    if not os.path.isfile(program):
        sys.exit(f"{done.stdout.decode()}the program {name} could not be built")
    return program
