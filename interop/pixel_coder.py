"""The decoder of intervals by sample as a program that other programs can ask: `PixelCoder` starts it and hands it requests.

It is proved and built as `coder.py` says.
"""
from __future__ import annotations

import array
import struct
import subprocess
import sys
from typing import Tuple

from coder import built, most_significant_first

NAME = "pixel_coder"
CRATES = ("jls_values", "jls_bits", "jls_context", "jls_interval", "jls_pixel")

PROGRAM = """\
//! Decodes intervals by sample as standard input asks.
//!
//! A request is the precision, MAXVAL, T1, T2, T3, RESET, the width, the components and the rows, in 1, 2, 2, 2, 2, 2, 2, 1 and 4 bytes.
//! The length of a piece follows in 4 bytes, and the piece. An answer is a byte, which is 0 where the piece reads, and the samples, pixel
//! by pixel, with their length in bytes in 8 bytes before them. They are of 2 bytes each. Of a fault there are none.
#![tactic(auto)]

ghost use Rattle.std.specs.Prelude.{◌+◌, ◌<◌, length};

use jls_pixel::{Pixel, PixelFault, decode_pixels};
use jls_values::Params;
use std::alloc::{AllocError, Global};
use std::io;
use std::io::{Read, Write};

fn body_of(alloc: Global, components: u8, rows: &[Vec<Pixel>]) -> Result<Vec<u8>, AllocError> {
    let mut body = Vec::new(alloc);
    for row in rows {
        for pixel in row {
            for component in 0..usize::from(components) {
                body.extend_from_slice(&pixel.sample(component).to_be_bytes())?;
            }
        }
    }
    Ok(body)
}

fn number_at(head: &[u8], at: usize) -> u16
    requires { at + 1 < length head.now }
{
    u16::from_be_bytes([head[at], head[at + 1]])
}

fn long_number_at(head: &[u8], at: usize) -> u32
    requires { at + 3 < length head.now }
{
    u32::from_be_bytes([head[at], head[at + 1], head[at + 2], head[at + 3]])
}

fn answer_to(alloc: Global, head: &[u8; 22], piece: &[u8]) -> io::Result<(u8, Vec<u8>)> {
    let Ok(params) = Params::new(
        head[0],
        number_at(head, 1),
        number_at(head, 3),
        number_at(head, 5),
        number_at(head, 7),
        number_at(head, 9),
    ) else {
        return Ok((3, Vec::new(alloc)));
    };
    let width = number_at(head, 11);
    let components = head[13];
    if width == 0 || components > 4 {
        return Ok((3, Vec::new(alloc)));
    }
    match decode_pixels(alloc, &params, width, components, long_number_at(head, 14), piece) {
        Ok(rows) => Ok((0, body_of(alloc, components, &rows)?)),
        Err(PixelFault::Long) => Ok((1, Vec::new(alloc))),
        Err(PixelFault::Broken) => Ok((2, Vec::new(alloc))),
        Err(PixelFault::OutOfMemory) => Err(AllocError.into()),
    }
}

fn main(rt: HostRuntime) -> io::Result<()> {
    let mut input = rt.stdin();
    let mut output = rt.stdout();
    for _ in 0..u64::MAX {
        let mut first = [0u8];
        if input.read(&mut first)? == 0 {
            break;
        }
        let mut rest = [0u8; 21];
        input.read_exact(&mut rest)?;
        let mut head = [0u8; 22];
        head[0] = first[0];
        for place in 0..21 {
            head[place + 1] = rest[place];
        }
        let mut piece = vec![in rt.alloc(); 0u8; long_number_at(&head, 18) as usize]?;
        input.read_exact(&mut piece)?;
        let (kind, body) = answer_to(rt.alloc(), &head, &piece)?;
        output.write_all(&[kind])?;
        output.write_all(&(body.len() as u64).to_be_bytes())?;
        output.write_all(&body)?;
    }
    Ok(())
}
"""

KINDS = ("read", "long", "broken", "refused")


class PixelCoder:
    """The program while it runs. `params` are precision, MAXVAL, T1, T2, T3 and RESET, 0 for the default."""

    def __init__(self) -> None:
        program = built(NAME, PROGRAM, CRATES, "jls_values jls_pixel")
        self.child = subprocess.Popen([program], stdin=subprocess.PIPE, stdout=subprocess.PIPE)

    def decode(self, params: Tuple[int, ...], width: int, components: int, rows: int, piece: bytes) -> Tuple[str, "array.array[int]"]:
        """What a piece is, and its samples, pixel by pixel."""
        assert self.child.stdin is not None and self.child.stdout is not None
        self.child.stdin.write(struct.pack(">B5HHBII", *params, width, components, rows, len(piece)) + piece)
        self.child.stdin.flush()
        head = self.child.stdout.read(9)
        if len(head) < 9:
            sys.exit(f"the coder ended with status {self.child.wait()}")
        kind, length = struct.unpack(">BQ", head)
        return KINDS[kind], most_significant_first(array.array("H", self.child.stdout.read(length)))
