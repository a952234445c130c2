"""The recorded calls of the repository, as their RECORDING.md have them."""

import pathlib
import struct

from mlat_solver import Files, Refusal

REPOSITORY = pathlib.Path(__file__).resolve().parents[2]
EXAMPLES = REPOSITORY / "examples"
#: Files with what an independent implementation makes of them, beside the Rust crate's tests.
DATA = REPOSITORY / "rust" / "tests" / "data"
FOLDERS = ("fix", "outlier", "ambiguous", "corrected", "screened")


def _cases(crate, after):
    """Problems with the bytes that follow each: crates/replay and crates/replay_states."""
    held = (REPOSITORY / "crates" / crate / "stdin").read_bytes()
    at = 0
    while at < len(held):
        *lengths, there, _ = struct.unpack_from("<HHBBBB", held, at)
        at += 8
        parts = []
        for length, bit in zip(lengths, (3, 0, 1, 2)):
            parts.append(held[at : at + length] if there >> bit & 1 else None)
            at += length
        yield Files(*parts), held[at : at + after]
        at += after


def solved():
    """The problems of crates/replay, each with its record."""
    return _cases("replay", 176)


def states():
    """Those of crates/replay_states, each with number, detail and 640 bytes."""
    return ((files, *struct.unpack("<II640s", told)) for files, told in _cases("replay_states", 648))


def _calls(crate, lengths):
    """Calls of eight bytes, what is given and what is lent after it; `lengths` says how long the two are, by the
    eight."""
    held = (REPOSITORY / "crates" / crate / "stdin").read_bytes()
    at = 0
    while at < len(held):
        head = held[at : at + 8]
        given, after = lengths(head)
        at += 8
        yield head[0], head[1], held[at : at + given], held[at + given : at + given + after]
        at += given + after


def record_calls():
    """crates/replay_records: kind (0 a place, 1 a read, 2 a write), number, what is given, what is lent after it."""
    def lengths(head):
        length = struct.unpack_from("<I", head, 4)[0]
        return {0: (8 + length, 8 + 176 * head[2]), 1: (length, 176), 2: (176, length)}[head[0]]
    return _calls("replay_records", lengths)


def wire_calls():
    """crates/replay_wire: kind (0 writes, 1 reads back), number, given, after."""
    return _calls("replay_wire", lambda head: (struct.unpack_from("<I", head, 4)[0], 12) if head[0] == 0 else (12, 24))


def archive_calls():
    """crates/replay_archive: kind (0 there, 1 back), number, the record, the output after it."""
    return _calls("replay_archive", lambda head: struct.unpack_from("<HH", head, 2))


def near_calls():
    """crates/replay_near: kind (0 within, 1 nearest), number, the file with point and radius, count or place and the
    entries lent."""
    def lengths(head):
        file, entries = struct.unpack_from("<HH", head, 2)
        return file + 32, 8 + 8 * entries
    return _calls("replay_near", lengths)


def asterix_calls():
    """crates/replay_asterix: kind (0 exports, 1 writes, 2 reads), number, given, after."""
    return _calls("replay_asterix", lambda head: (head[2], 12) if head[0] == 2 else (12, head[2]))


def pattern_calls():
    """crates/replay_patterns: how many receptions, number, the seven counts' bytes."""
    held = (REPOSITORY / "crates" / "replay_patterns" / "stdin").read_bytes()
    return struct.iter_unpack("<II56s", held)


def cut_calls():
    """rust/tests/data/streams: of `mlat_cut_lengths`, the lengths and what they are cut to."""
    held = (DATA / "streams" / "cuts.bin").read_bytes()
    return [(words[1:5], words[13:17]) for words in struct.iter_unpack("<22Q", held) if words[0] == 10]


def matrix_calls():
    """crates/replay_matrices: kind, number, n, width, the bytes of the first and the second array, of out after it."""
    held = (REPOSITORY / "crates" / "replay_matrices" / "stdin").read_bytes()
    at = 0
    while at < len(held):
        *head, first, second, out = struct.unpack_from("<4B3H", held, at)
        parts = []
        at += 16
        for count in (first, second, out):
            parts.append(held[at : at + 8 * count])
            at += 8 * count
        yield (*head, *parts)


def answer(call, *given):
    """0 and what a call of the package gives; or its refusal's number, and nothing."""
    try:
        return 0, call(*given)
    except Refusal as refusal:
        return refusal.number, b""


def falsified(number, after, k):
    """The answer of call k with a bit of its bytes changed, now of one, now of another; without bytes of its number."""
    if not after:
        return number ^ 1, after
    place = k % len(after)
    return number, after[:place] + bytes([after[place] ^ 1]) + after[place + 1 :]
