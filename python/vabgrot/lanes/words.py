"""Converts files of ten-bit words, as FPGA deserialisers and simulations dump them, to the bits of a lane and back."""

import re

import numpy as np
import numpy.typing as npt
from tqdm import tqdm

from vabgrot.errors import Refused
from vabgrot.formats.characters import TEN

Words = npt.NDArray[np.uint16] | npt.NDArray[np.uint32]

PART = 1 << 18  # words; four of them make five bytes
TEXTS = np.array([f"{word:03x}\n".encode() for word in range(1 << TEN)])
COMMENT = re.compile(rb"//[^\n]*")


def words_of(data: bytes, width: int, path: str) -> Words:
    """Reads the words of a file. With `width` 16 or 32 these are binary, low byte first. With `width` 10 they are hexadecimal numbers
    with spaces or line ends between them, as $readmemh and $writememh use. Raises Refused, which names `path`."""
    if width != TEN:
        if len(data) % (width // 8):
            raise Refused(f"{path}: its {len(data)} bytes are no whole number of words of {width} bits")
        return np.frombuffer(data, f"<u{width // 8}")
    known = {text.strip(): word for word, text in enumerate(TEXTS.tolist())}
    parts = COMMENT.sub(b"", data).split()
    found = np.fromiter((known.get(part, -1) for part in parts), np.int32, len(parts))
    for at in np.flatnonzero(found < 0):
        text = parts[at].decode("ascii", "replace")
        if not re.fullmatch(r"[0-9a-fA-F]{1,8}", text) or int(text, 16) >= 1 << TEN:
            raise Refused(f"{path}: its word {at}, `{text[:20]}`, is no hexadecimal number of ten bits")
        found[at] = int(text, 16)
    return found.astype(np.uint16)


def bits_of(words: Words, msb: bool) -> npt.NDArray[np.bool_]:
    """Returns the lowest ten bits of each word as booleans. The lowest bit comes first, with `msb` the highest."""
    places = np.arange(TEN)[:: -1 if msb else 1]
    bits: npt.NDArray[np.bool_] = (words[:, None] >> places.astype(words.dtype) & 1).astype(bool).reshape(-1)
    return bits


def joined(words: Words, msb: bool) -> bytes:
    """Packs the bits of words (see `bits_of`) into bytes."""
    parts = []
    for at in tqdm(range(0, len(words), PART), unit="part", disable=None):
        parts.append(np.packbits(bits_of(words[at : at + PART], msb), bitorder="little").tobytes())
    return b"".join(parts)


def parted(lane: bytes | bytearray, count: int, width: int, msb: bool) -> bytes:
    """Returns a file for `words_of` with the first `count` bits of a lane, ten in each word. The last word is padded with zeros."""
    worth = (1 << np.arange(TEN)[:: -1 if msb else 1]).astype("<u4" if width == 32 else "<u2")
    bits, size, parts = np.frombuffer(lane, np.uint8), PART * TEN // 8, []
    for at in tqdm(range(0, len(bits), size), unit="part", disable=None):
        part = np.unpackbits(bits[at : at + size], count=min(8 * size, count - 8 * at), bitorder="little")
        words = (np.pad(part, (0, -len(part) % TEN)).reshape(-1, TEN) @ worth).astype(worth.dtype)
        parts.append((TEXTS[words] if width == TEN else words).tobytes())
    return b"".join(parts)
