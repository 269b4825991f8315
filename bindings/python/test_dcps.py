"""The module held to the recorded lists (docs/evidence/LISTS.md) and to the header."""

import ctypes
import doctest
import functools
import os
import re
import struct
import unittest
from typing import Callable, Dict, Iterator, List, NamedTuple, Optional, Tuple

import dcps
from dcps import Answer, LivelinessChangedStatus, LivelinessKind, Refusal, Refused, Sample, State, Time

ROOT = os.path.join(os.path.dirname(os.path.abspath(__file__)), "..", "..")
BEGIN, LIST, PUT, HEAD, CALL, EXPECT, END = range(1, 8)
PRIME, BITS = 0x100000001B3, 2**64


@functools.lru_cache(maxsize=4096)
def digest(b: bytes) -> int:
    """64-bit FNV-1a; a run of zeros is a power of the prime."""
    value = 0xCBF29CE484222325
    for run in re.finditer(rb"\0+|[^\0]+", b):
        if b[run.start()] == 0:
            value = value * pow(PRIME, run.end() - run.start(), BITS) % BITS
        else:
            for byte in run.group():
                value = (value ^ byte) * PRIME % BITS
    return value


def records() -> Iterator[Tuple[int, bytes]]:
    with open(os.path.join(ROOT, "crates", "replay", "stdin"), "rb") as file:
        while front := file.read(8):
            kind, length = struct.unpack(">B3xI", front)
            yield kind, file.read(length)


class Recorded(NamedTuple):
    """A call's record."""

    lengths: Tuple[int, int, int, int, int]  # sheet, out, pens, writers, lost
    fill: int
    digests: Tuple[int, int, int, int]  # out, pens, writers, lost
    answer: bytes
    head: bytes
    sheet: bytes
    written: bytes

    @staticmethod
    def of(body: bytes) -> "Recorded":
        sheet, out, pens, writers, lost, fill, written, *digests = struct.unpack_from(">HHIHHBxH4Q", body)
        split = 184 + sheet
        assert len(body) == split + written
        return Recorded((sheet, out, pens, writers, lost), fill, tuple(digests), body[48:120], body[120:184], body[184:split],
                        body[split:])


class Image:
    """Head and buffers of a list, as long as the longest that is lent."""

    def __init__(self, places: int = 128) -> None:
        self.head = bytearray(State(places).parts()[0])
        self.buffers = [bytearray(66_048), bytearray(5_160), bytearray(4_112)]

    def put(self, body: bytes) -> None:
        at = struct.unpack_from(">I", body, 4)[0]
        self.buffers[body[0]][at:at + len(body) - 8] = body[8:]

    def expected(self, body: bytes) -> bool:
        at = struct.unpack_from(">I", body, 4)[0]
        return self.buffers[body[0]][at:at + len(body) - 8] == body[8:]

    def call(self, r: Recorded) -> bool:
        """The call as it was recorded, over the fronts of the buffers."""
        _, out_length, *lengths = r.lengths
        out = ctypes.create_string_buffer(bytes([r.fill]) * out_length, out_length)
        answer = ctypes.create_string_buffer(dcps.ANSWER_BYTES)
        lent = [lend(buffer, length) for buffer, length in zip([self.head] + self.buffers, [dcps.HEAD_BYTES] + lengths)]
        number = dcps.call(lent[0], r.sheet, *lent[1:], out, answer)
        fronts = [out.raw] + [bytes(buffer[:length]) for buffer, length in zip(self.buffers, lengths)]
        return (number == r.answer[0] and answer.raw == r.answer and self.head == r.head
                and out.raw.startswith(r.written) and tuple(map(digest, fronts)) == r.digests)


def lend(buffer: bytearray, length: int) -> ctypes.Array:
    return (ctypes.c_char * length).from_buffer(buffer)


class Fields:
    """A sheet's fields, for a call by name."""

    def __init__(self, sheet: bytes) -> None:
        (self.key, self.guid, self.handle, *times, self.a, self.b, self.limit, self.strength, self.bits, self.code, length,
         holder) = struct.unpack(">16s16sQiIiIQQiiBBH144s28x", sheet)
        self.time_1, self.time_2, self.prefix = Time(*times[:2]), Time(*times[2:]), self.guid[:12]
        self.n = self.strength % 2**32
        self.holder = holder[:length] if length <= 144 else bytes(length)
        self.stamp = self.time_1 if self.bits & dcps.BIT_TIME_1 else None
        self.deadline = self.b if self.bits & dcps.BIT_DEADLINE else None
        self.lease = self.b if self.bits & dcps.BIT_LEASE else None
        self.optional_holder = self.holder if self.bits & dcps.BIT_HOLDER else None
        self.sample = Sample(self.key, self.guid, self.time_1, self.time_2, self.holder, self.strength,
                             bool(self.bits & dcps.BIT_BY_SOURCE), self.a, self.deadline, self.limit)


def handles(a: Answer, out: bytes) -> List[int]:
    return list(struct.unpack_from(f">{a.listed}Q", out))


def guids(a: Answer, out: bytes) -> List[bytes]:
    return [out[16 * i:16 * i + 16] for i in range(a.listed)]


def admission(a: Answer) -> tuple:
    return (a.outcome, a.handle, a.samples, a.view_new, a.kind, a.disposed_generation_count, a.no_writers_generation_count)


# Each code: the call by its name, and what it has to give by the recorded answer and list.
NAMED: Dict[int, Tuple[Callable[[State, Fields], object], Callable[[Answer, bytes], object]]] = {
    1: (lambda s, f: s.register(f.key, f.holder, f.stamp), lambda a, o: a.handle),
    2: (lambda s, f: s.ensure_registered_limited(f.key, f.limit), lambda a, o: a.found),
    3: (lambda s, f: s.dispose(f.handle, f.stamp), lambda a, o: a.yes),
    4: (lambda s, f: s.unregister(f.handle, f.stamp), lambda a, o: a.yes),
    5: (lambda s, f: s.unregister_writer(f.handle, f.guid, f.stamp), lambda a, o: a.yes),
    6: (lambda s, f: s.note_writer(f.handle, f.guid), lambda a, o: None),
    7: (lambda s, f: s.drop_writer(f.guid, f.stamp), handles),
    8: (lambda s, f: s.observe_lifecycle(f.key, f.optional_holder, f.stamp), lambda a, o: a.handle),
    9: (lambda s, f: s.observe_admitted(f.key, f.holder, f.time_1, f.limit),
        lambda a, o: (a.handle, a.samples) if a.present else None),
    10: (lambda s, f: s.note_admitted(f.key, f.time_1, f.time_2, f.guid),
         lambda a, o: (a.view_new, a.kind, a.disposed_generation_count, a.no_writers_generation_count) if a.present else None),
    11: (lambda s, f: s.record_delivery(f.key, f.time_1), lambda a, o: None),
    12: (lambda s, f: s.note_taken(f.handle, f.n), lambda a, o: None),
    13: (lambda s, f: s.mark_view_seen(f.handle), lambda a, o: None),
    14: (lambda s, f: s.mark_view_new(f.key), lambda a, o: a.yes),
    15: (lambda s, f: s.drain_samples(f.handle, f.n), lambda a, o: None),
    16: (lambda s, f: s.accept_under_exclusive_ownership(f.key, f.guid, f.strength, f.time_2, f.deadline), lambda a, o: a.yes),
    17: (lambda s, f: s.update_owner_strength(f.guid, f.strength), lambda a, o: None),
    18: (lambda s, f: s.clear_owner_for_writer(f.guid), lambda a, o: a.count),
    19: (lambda s, f: s.clear_owner_for_writer_prefix(f.prefix), lambda a, o: a.count),
    20: (lambda s, f: s.release_owner_of(f.key, f.guid), lambda a, o: a.yes),
    21: (lambda s, f: s.autopurge(f.time_2, f.a, f.b), lambda a, o: a.count),
    32: (lambda s, f: s.matched(f.guid, LivelinessKind(f.bits & 3), f.lease, f.a), lambda a, o: a.yes),
    33: (lambda s, f: s.unmatched(f.guid), lambda a, o: a.yes),
    34: (lambda s, f: s.lost_with_participant(f.guid), lambda a, o: a.yes),
    35: (lambda s, f: s.writer_asserted(f.guid, f.a), lambda a, o: a.yes),
    36: (lambda s, f: s.participant_asserted(f.prefix, bool(f.bits & dcps.BIT_MANUAL), f.a), lambda a, o: a.yes),
    37: (lambda s, f: s.expire(f.a), lambda a, o: (a.yes, a.next_due)),
    38: (lambda s, f: s.take_lost(), guids),
    39: (lambda s, f: s.take_status(), lambda a, o: a.status),
    40: (lambda s, f: s.acknowledge(LivelinessChangedStatus(0, 0, f.limit, f.strength)), lambda a, o: None),
    48: (lambda s, f: s.admit(f.sample), lambda a, o: admission(a)),
    49: (lambda s, f: s.lapse(f.a, f.stamp), lambda a, o: (a.yes, a.next_due, handles(a, o), a.count)),
    50: (lambda s, f: s.part(f.guid, f.stamp), lambda a, o: (a.yes, handles(a, o), a.count)),
    51: (lambda s, f: s.depart(f.guid, f.stamp), lambda a, o: (a.yes, handles(a, o), a.count)),
}


def by_name(image: Image, r: Recorded) -> Optional[bool]:
    """Whether the call by its name gives what was recorded; None where no name has it: another length, an unknown code, kind 3, a
    state that is none."""
    places = struct.unpack_from(">H", image.head, 30)[0]
    if r.lengths != (256, 4096, 512 * places, 5120, 4096) or r.sheet[81] not in NAMED or r.answer[0] == 3:
        return None
    if r.sheet[81] == 32 and r.sheet[80] & 3 == 3:
        return None
    state = State.from_parts(bytes(image.head), *(bytes(b[:n]) for b, n in zip(image.buffers, r.lengths[2:])))
    method, wanted = NAMED[r.sheet[81]]
    try:
        given = method(state, Fields(r.sheet))
    except Refused as refused:
        agrees = refused.number == r.answer[0] != 0
    else:
        result = admission_of(given) if r.sheet[81] == 48 else given
        agrees = r.answer[0] == 0 and result == wanted(Answer.from_bytes(r.answer), r.written)
    head, *buffers = state.parts()
    return agrees and head == r.head and tuple(map(digest, buffers)) == r.digests[1:]


def admission_of(given: dcps.Admission) -> tuple:
    return (given.outcome, given.handle, given.samples_in_cache, given.view_new, given.kind, given.disposed_generation_count,
            given.no_writers_generation_count)


class RecordedLists(unittest.TestCase):
    def test_replay(self) -> None:
        image, stated, calls, named, wrong = Image(), 0, 0, 0, []
        for kind, body in records():
            if kind == BEGIN:
                stated = struct.unpack_from(">I", body, 8)[0]
            elif kind == LIST:
                image = Image(struct.unpack_from(">H", body, 6)[0])
            elif kind == PUT:
                image.put(body)
            elif kind == HEAD:
                image.head[:] = body
            elif kind == EXPECT and not image.expected(body):
                wrong.append((calls, "record in full"))
            elif kind == CALL:
                calls += 1
                recorded = Recorded.of(body)
                name = by_name(image, recorded)
                named += name is not None
                if name is False:
                    wrong.append((calls, "by name"))
                if not image.call(recorded):
                    wrong.append((calls, "as recorded"))
        print(f"python: {calls} recorded calls, {named} of them also by name, {len(wrong)} disagreements")
        self.assertEqual(wrong, [])
        self.assertEqual(calls, stated)
        self.assertGreater(named, calls // 2)


class Header(unittest.TestCase):
    """Numbers and names are those of include/dcps.h."""

    def setUp(self) -> None:
        with open(os.path.join(ROOT, "include", "dcps.h"), encoding="utf-8") as file:
            self.text = file.read()
        self.values = {name: int(value, 0) for name, value in
                       re.findall(r"^(?:#define| {4})\s*DCPS_([A-Z0-9_]+)\s+=?\s*(0x[0-9a-f]+|\d+)\b", self.text, re.M)}
        for line in re.findall(r"^enum \w+ \{ (.*?) \};", self.text, re.M):
            self.values.update({name: int(value) for name, value in re.findall(r"DCPS_(\w+) = (\d+)", line)})

    def test_constants(self) -> None:
        names = [name for name in vars(dcps) if re.match(r"[A-Z]+_[A-Z0-9_]+$", name) and name in self.values]
        self.assertGreater(len(names), 15)
        self.assertEqual({name: getattr(dcps, name) for name in names}, {name: self.values[name] for name in names})

    def test_refusals(self) -> None:
        refused = sorted(value for name, value in self.values.items() if name.startswith("REFUSED_"))
        self.assertEqual(refused, [int(refusal) for refusal in Refusal])

    def test_functions(self) -> None:
        declared = re.findall(r"^uint32_t dcps_(\w+)\(", self.text, re.M)
        self.assertEqual(sorted(declared), sorted(dcps._TAKES))

    def test_version(self) -> None:
        self.assertEqual(dcps.version(), tuple(self.values[f"VERSION_{part}"] for part in ("MAJOR", "MINOR", "PATCH")))
        self.assertEqual(dcps.version()[:2], dcps.VERSION)
        for other in (0, 2, 9), (0, 4, 0), (1, 3, 0):
            self.assertRaises(ImportError, dcps._same_version, other)


class Reads(unittest.TestCase):
    """Each read, on a state where its answer is known."""

    def setUp(self) -> None:
        self.pen, self.writer = b"pen-01".ljust(16), b"plotter-1   c1".ljust(16)
        self.state = State(places=32)
        sample = Sample(self.pen, self.writer, Time(5), key_holder=b"serial 1", strength=3)
        self.handle = self.state.admit(sample).handle

    def test_instances(self) -> None:
        s, pen, second = self.state, self.pen, 10**9
        times = Time(5), Time(5, second - 1), Time(6)
        self.assertEqual([s.should_deliver_under_time_based_filter(pen, time, second) for time in times], [False, False, True])
        self.assertEqual([s.should_deliver_under_destination_order(pen, Time(5), by) for by in (True, False)], [False, True])
        self.assertEqual(s.last_delivered_ts(pen), Time(5))
        self.assertEqual(list(s.walk()), [self.handle])
        self.assertEqual((s.next_handle_after(), s.next_handle_after(self.handle)), (self.handle, None))
        self.assertEqual((s.holder_in_force(pen, b"offered"), s.holder_in_force(bytes(16), b"offered")), (b"serial 1", b"offered"))

    def test_writers(self) -> None:
        s = self.state
        self.assertEqual((s.writer_lookup(self.writer), s.writer_lookup(bytes(16))), (self.handle, None))
        self.assertTrue(s.would_leave_writerless([self.writer]))
        self.assertEqual(s.left_writerless([self.writer], dcps.VIEW_NOT_NEW), [])
        self.assertEqual(s.left_writerless([self.writer, bytes(16)]), [self.handle])
        s.matched(self.writer, LivelinessKind.AUTOMATIC, 100, 7)
        self.assertEqual((s.status()[:4], s.changes(), s.writers()[0].lease), ((1, 0, 1, 0), 1, 100))
        self.assertEqual((s.expire(107), s.lost()), ((True, None), [self.writer]))

    def test_records(self) -> None:
        instance = self.state.get_by_keyhash(self.pen)
        self.assertEqual((instance.handle, instance.key_holder, instance.writers), (self.handle, b"serial 1", [self.writer]))
        self.assertEqual((instance.current_owner, instance.owner_at), ((self.writer, 3), Time(5)))
        self.assertEqual((len(self.state), self.state.places, self.state.lookup(self.pen)), (1, 32, self.handle))
        self.assertEqual(self.state.copy(), self.state)

    def test_refusals(self) -> None:
        with self.assertRaises(Refused) as refused:
            self.state.record_delivery(self.pen, Time(0, 10**9))
        self.assertEqual(refused.exception.number, Refusal.NANOSECONDS)
        self.assertRaises(Refused, State, 33)
        self.assertRaises(Refused, State.from_parts, bytes(64), *self.state.parts()[1:])
        self.assertRaises(Refused, dcps.key_hash, b"abc", 2)
        self.assertRaises(OverflowError, dcps.wire_fraction, 2**32)
        self.assertRaises(ValueError, self.state.register, b"short")

    def test_lengths(self) -> None:
        head, pens, writers, lost = self.state.parts()
        with self.assertRaises(Refused) as refused:
            State.from_parts(head, pens[1:], writers, lost)
        self.assertEqual(refused.exception.number, 1)
        for parts in (head[1:], pens, writers, lost), (head, pens, writers[1:], lost), (head, pens, writers, lost[1:]):
            self.assertRaises(ValueError, State.from_parts, *parts)

    def test_numbers(self) -> None:
        s, before = self.state, self.state.parts()
        for strength in -2**31 - 1, 2**31:
            self.assertRaises(OverflowError, s.update_owner_strength, self.writer, strength)
            self.assertRaises(OverflowError, s.accept_under_exclusive_ownership, self.pen, self.writer, strength, Time(6))
            self.assertRaises(OverflowError, s.admit, Sample(self.pen, self.writer, Time(6), strength=strength))
            self.assertRaises(OverflowError, s.acknowledge, LivelinessChangedStatus(0, 0, 0, strength))
        for n in -1, 2**32:
            self.assertRaises(OverflowError, s.note_taken, self.handle, n)
            self.assertRaises(OverflowError, s.drain_samples, self.handle, n)
        self.assertRaises(ValueError, s.matched, self.writer, 4, None, 7)
        self.assertEqual(s.parts(), before)
        s.drain_samples(self.handle, 2**32 - 1)
        for strength in -2**31, 2**31 - 1:
            s.update_owner_strength(self.writer, strength)
            self.assertEqual(s.get_by_keyhash(self.pen).current_owner, (self.writer, strength))


def load_tests(_loader: unittest.TestLoader, tests: unittest.TestSuite, _pattern: Optional[str]) -> unittest.TestSuite:
    tests.addTests(doctest.DocTestSuite(dcps))
    return tests


if __name__ == "__main__":
    unittest.main()
