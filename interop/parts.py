"""Where each copy is parted, as `find_parts` of jls_diff says, and whether a file is a splice of these parts.

`jls-splice` prints where the first copy is parted, and not where the others are. So a small program over the crate prints it of all.
`rt try` builds it from the crate's sources each time, which proves nothing.
"""
import os
import shutil
import struct
import subprocess
import sys
import tempfile

TOP = os.path.dirname(os.path.dirname(os.path.realpath(__file__)))
NAME = "parts_teller"
GROUPS_IN_A_RUN = 100  # rt try takes no more than a megabyte of output

PROGRAM = """\
//! Reads groups of copies from standard input, and prints how `find_parts` parts them.
//!
//! All numbers are of 4 bytes. The input is the number of groups; a group is the number of its copies; a copy is its length and its bytes.
//! A part is a line: `same` and a length, or `differ` and a length for each copy. The last line of a group is a full stop.
#![tactic(auto)]

use jls_diff::{Part, find_parts};
use std::io;
use std::io::Read;

fn number_from<R: Read>(input: &mut R) -> io::Result<u32> {
    let mut bytes = [0u8; 4];
    input.read_exact(&mut bytes)?;
    Ok(u32::from_be_bytes(bytes))
}

fn print_part(rt: &HostRuntime, part: &Part<'_>) -> io::Result<()> {
    match part {
        Part::Same(bytes) => println!(rt; "same {}", bytes.len()),
        Part::Differ(ways) => {
            print!(rt; "differ")?;
            for way in ways {
                print!(rt; " {}", way.len())?;
            }
            println!(rt; "")
        }
    }
}

fn tell_group<R: Read>(rt: &HostRuntime, input: &mut R) -> io::Result<()> {
    let mut copies = Vec::new(rt.alloc());
    for _ in 0..number_from(input)? {
        let mut copy = vec![in rt.alloc(); 0u8; number_from(input)? as usize]?;
        input.read_exact(&mut copy)?;
        copies.push(copy)?;
    }
    let mut slices = Vec::new(rt.alloc());
    for copy in copies.iter() {
        slices.push(copy.as_slice())?;
    }
    let parts = find_parts(rt.alloc(), &slices)?;
    for place in 0..parts.len() {
        print_part(rt, parts.part(place))?;
    }
    println!(rt; ".")
}

fn main(rt: HostRuntime) -> io::Result<()> {
    let mut input = rt.stdin();
    for _ in 0..number_from(&mut input)? {
        tell_group(&rt, &mut input)?;
    }
    Ok(())
}
"""


def make_crates(folder):
    """A copy of jls_diff, with one crate more, whose folder it gives."""
    for source in ("src", "specs", "proofs"):
        shutil.copytree(os.path.join(TOP, "crates", "jls_diff", source), os.path.join(folder, "crates", "jls_diff", source))
    with open(os.path.join(folder, "crates.txt"), "w") as file:
        file.write(f"jls_diff:\n{NAME}: jls_diff\n")
    crate = os.path.join(folder, "crates", NAME)
    os.makedirs(os.path.join(crate, "src"))
    with open(os.path.join(crate, "src", "main.rt"), "w") as file:
        file.write(PROGRAM)
    return crate


def asked(groups):
    """The input of the program."""
    out = [struct.pack(">I", len(groups))]
    for copies in groups:
        out.append(struct.pack(">I", len(copies)))
        out += [struct.pack(">I", len(copy)) + copy for copy in copies]
    return b"".join(out)


def answers(groups):
    """The lines that the program prints of each group."""
    with tempfile.TemporaryDirectory() as folder:
        crate, cases = make_crates(folder), os.path.join(folder, "cases")
        os.makedirs(cases)
        for at in range(0, len(groups), GROUPS_IN_A_RUN):
            with open(os.path.join(cases, f"{at:09}"), "wb") as file:
                file.write(asked(groups[at : at + GROUPS_IN_A_RUN]))
        words = ["rt", "try", "--steps", "1", "--cases", cases]
        done = subprocess.run(words, cwd=crate, stdin=subprocess.DEVNULL, stdout=subprocess.PIPE, stderr=subprocess.PIPE, text=True)
    if done.returncode != 0:
        sys.exit(f"{done.stderr}the program over jls_diff could not be built or run")
    told = [[]]
    for line in done.stdout.splitlines():
        if line == ".":
            told.append([])
        elif not line.startswith("== "):
            told[-1].append(line.split())
    return told[:-1]


class Parts:
    """The stretches that all copies have alike, and between each two what each copy has there."""

    def __init__(self, copies, lines):
        self.same, self.ways, places = [b""], [], [0] * len(copies)
        for kind, *words in lines:
            lengths = [int(word) for word in words] * (len(copies) if kind == "same" else 1)
            here = [copy[at : at + length] for copy, at, length in zip(copies, places, lengths)]
            places = [at + length for at, length in zip(places, lengths)]
            if kind == "same":
                self.same[-1] = here[0]
            else:
                self.ways.append(here)
                self.same.append(b"")

    def printed(self):
        """The lines on the first copy, as `jls-splice` prints them."""
        at, lines = 0, []
        for stretch, ways in zip(self.same, self.ways):
            at += len(stretch)
            lines.append(f"differ {at} {len(ways[0])}")
            at += len(ways[0])
        return lines

    def make(self, file):
        """Whether the file is a splice: it has, between the stretches, what some copy has there."""
        ends = {len(self.same[0])} if file.startswith(self.same[0]) else set()
        for ways, stretch in zip(self.ways, self.same[1:]):
            ends = {at + len(way) + len(stretch) for at in ends for way in set(ways) if file.startswith(way + stretch, at)}
        return len(file) in ends


def parts_of(groups):
    """The parts of each group of copies."""
    return [Parts(copies, lines) for copies, lines in zip(groups, answers(groups))]
