"""The frames of witnesses beside those of the copies of JPEG-LS."""
from __future__ import annotations

from collections.abc import Sequence
from functools import partial
from typing import Optional

from jls_tools.dicom.copies.witness import Witness
from jls_tools.frames.codestream import unpadded
from jls_tools.frames.mending import FrameMender, Mended
from jls_tools.frames.unsupported import NOT_SUPPORTED
from jls_tools.frames.witness import CONFIRMED, WitnessMender, coded_by


class WitnessedFrames:
    """Mends frames by witnesses, in the folder of a FrameMender."""

    def __init__(self, witnesses: Sequence[Witness], mender: FrameMender) -> None:
        self.witnesses, self.mender = witnesses, WitnessMender(mender)

    def mend(self, mended: Mended, streams: Sequence[bytes], count: int) -> Mended:
        """What a frame, of so many, came to, with the first witness that is confirmed."""
        number = mended.result.number
        for witness in self.witnesses if mended.result.kind != NOT_SUPPORTED else ():
            if not mended.is_whole and witness.frame_count == count:
                mended = self.mender.mend(mended, streams, partial(witness.planes, number))
        return mended

    def why_denied(self, witness: Witness, frames: Sequence[Mended]) -> Optional[str]:
        """Which frame of one copy is not to the byte what its samples are coded as; nothing if all are."""
        if witness.frame_count != len(frames):
            return "it has another number of frames"
        for frame in frames:
            number, stream = frame.result.number, frame.stream
            if not frame.is_whole or stream is None:
                return f"frame {number} is not whole"
            found = coded_by(stream, partial(witness.planes, number)) if frame.result.note != CONFIRMED else None
            if frame.result.note != CONFIRMED and (found is None or found.stream != unpadded(stream)):
                return f"frame {number} is not what its samples are coded as"
        return None
