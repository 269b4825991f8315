"""The instance tracker and the liveliness tracker of a DDS reader, over the proved library libdcps.so.

A State has a method for each call and each read of the library, with the names of the Rust crate. A refused call raises Refused
and leaves the state as it was.

    >>> state = State()
    >>> handle = state.register(b"pen-01".ljust(16), b"serial 1")
    >>> state.note_writer(handle, b"plotter-1".ljust(16))
    >>> state.drop_writer(b"plotter-1".ljust(16), Time(9)) == [handle]
    True
    >>> state.get_by_handle(handle).kind
    <InstanceStateKind.NOT_ALIVE_NO_WRITERS: 2>

Keys and GUIDs are bytes of length 16, prefixes of length 12, handles are numbers. Clocks, leases and delays are numbers of
nanoseconds, None where there is none. What is decoded here from the bytes of a state, and so is no part of the proof, stands
under "what the records hold".

The library is looked for in the directory that DCPS_LIB_DIR names, else in the package that this file is part of, else where
the system's loader looks.
"""

from __future__ import annotations

import ctypes
import os
import struct
from dataclasses import dataclass
from enum import IntEnum
from typing import Iterable, Iterator, List, NamedTuple, Optional, Tuple, Union

HANDLE_NIL = 0
KEY_LARGEST_BYTES = 4096
REMAINDER_UNKNOWN = 999_999_999
NEVER = 2**64 - 1
VIEW_NEW, VIEW_NOT_NEW = 1, 2

HEAD_BYTES, SHEET_BYTES, WRITERS_BYTES, LOST_BYTES, OUT_BYTES = 64, 256, 5120, 4096, 4096
ANSWER_BYTES, READ_BYTES, INSTANCE_BYTES, WRITER_BYTES, HOLDER_PLACES = 72, 24, 512, 40, 144

# Bits of a sheet.
BIT_TIME_1, BIT_DEADLINE, BIT_LEASE, BIT_HOLDER, BIT_MANUAL, BIT_BY_SOURCE = 0x80, 0x40, 0x20, 0x10, 0x08, 0x04

Buffer = ctypes.Array  # of c_char
_buffer = ctypes.create_string_buffer


class Refusal(IntEnum):
    """Why a call is refused."""

    BUFFER_LENGTH = 1
    UNKNOWN_CODE = 2
    NOT_WELL_FORMED = 3
    NANOSECONDS = 4
    CLOCK_OR_LEASE = 5
    HOLDER_LENGTH = 6
    KIND = 7
    ACKNOWLEDGED = 8
    INSTANCES_FULL = 9
    WRITER_SET_FULL = 10
    WRITERS_FULL = 11
    LOST_FULL = 12
    HANDLES_SPENT = 13
    KEY_LENGTH = 14
    LARGEST_SIZE = 15


class Refused(Exception):
    """A call was refused. `number` says why; it is a Refusal, or a number that this module does not know."""

    def __init__(self, number: int) -> None:
        known = number in Refusal.__members__.values()
        self.number: int = Refusal(number) if known else number
        words = Refusal(number).name.lower().replace("_", " ") if known else "a number unknown here"
        super().__init__(f"refused as {int(number)}: {words}")


class InstanceStateKind(IntEnum):
    """Where an instance stands (DDS 1.4, 2.2.2.5.1.3)."""

    ALIVE = 0
    NOT_ALIVE_DISPOSED = 1
    NOT_ALIVE_NO_WRITERS = 2


class LivelinessKind(IntEnum):
    """What asserts a writer's liveliness (DDS 1.4, 2.2.3.11)."""

    AUTOMATIC = 0
    MANUAL_BY_PARTICIPANT = 1
    MANUAL_BY_TOPIC = 2


class WriterLiveliness(IntEnum):
    """Where a writer stands."""

    UNASSERTED = 0
    ALIVE = 1
    NOT_ALIVE = 2
    DEPARTED = 3


class Outcome(IntEnum):
    """What became of a sample. All but ADMITTED changed nothing."""

    ADMITTED = 0
    DESTINATION_ORDER = 1
    TIME_BASED_FILTER = 2
    MAX_INSTANCES = 3
    EXCLUSIVE_OWNERSHIP = 4


class Time(NamedTuple):
    """Seconds, rounded down, and nanoseconds below 10^9 of any epoch; negative before it."""

    sec: int
    nanosec: int = 0


class WireFraction(NamedTuple):
    """A fraction of a second in units of 2^-32 s, and what the division leaves that gave it."""

    fraction: int
    remainder: int


class LivelinessChangedStatus(NamedTuple):
    """The liveliness status of a reader (DDS 1.4, 2.2.4.1)."""

    alive_count: int = 0
    not_alive_count: int = 0
    alive_count_change: int = 0
    not_alive_count_change: int = 0
    last_publication_handle: int = HANDLE_NIL


@dataclass(frozen=True)
class Sample:
    """A received sample, with what the reader asks of it, for State.admit. Now, the time of filter and ownership, is
    `filter_ts`; without one it is `order_ts`."""

    keyhash: bytes
    writer: bytes
    order_ts: Time
    filter_ts: Optional[Time] = None
    key_holder: bytes = b""
    strength: int = 0
    by_source_timestamp: bool = False
    min_separation_nanos: int = 0
    deadline_nanos: Optional[int] = None
    max_instances: int = -1


@dataclass(frozen=True)
class Answer:
    """The 72 bytes of an answer. What a call does not answer is 0."""

    outcome: int
    yes: bool
    present: bool
    view_new: bool
    kind: InstanceStateKind
    next_due: Optional[int]
    handle: int
    samples: int
    disposed_generation_count: int
    no_writers_generation_count: int
    count: int
    listed: int
    status: LivelinessChangedStatus

    @staticmethod
    def from_bytes(b: bytes) -> Answer:
        (_, outcome, yes, present, view_new, kind, due_present, handle, samples, disposed, no_writers, count, listed,
         *counts, due, last) = struct.unpack(">7Bx Q 7I 2i 4x 2Q", b)
        status = LivelinessChangedStatus(*counts, last)
        return Answer(outcome, bool(yes), bool(present), bool(view_new), InstanceStateKind(kind), due if due_present else None,
                      handle, samples, disposed, no_writers, count, listed, status)

    @property
    def found(self) -> Optional[int]:
        """The handle, where there is one."""
        return self.handle if self.present else None


@dataclass(frozen=True)
class Admission:
    """What State.admit answers; without an instance where the sample was not admitted."""

    outcome: Outcome
    handle: int
    samples_in_cache: int
    view_new: bool
    kind: InstanceStateKind
    disposed_generation_count: int
    no_writers_generation_count: int

    @property
    def is_admitted(self) -> bool:
        return self.outcome == Outcome.ADMITTED


class Lapse(NamedTuple):
    """What State.lapse did: whether a writer expired, when the next lease runs out, which instances were left without a writer, and
    how many lost their owner."""

    changed: bool
    next_due: Optional[int]
    writerless: List[int]
    owners_cleared: int


class Parting(NamedTuple):
    """What State.part or State.depart did."""

    changed: bool
    writerless: List[int]
    owners_cleared: int


@dataclass(frozen=True)
class Head:
    """The counts that the library keeps beside the tables."""

    instance_count: int
    writer_count: int
    lost_count: int
    alive: int
    not_alive: int
    alive_change: int
    not_alive_change: int
    places: int
    next_handle: int
    changes: int
    last_writer: Optional[bytes]


@dataclass(frozen=True)
class InstanceState:
    """An instance as its record has it."""

    keyhash: bytes
    handle: int
    kind: InstanceStateKind
    disposed_generation_count: int
    no_writers_generation_count: int
    writer_count: int
    samples_in_cache: int
    reader_view_new: bool
    last_sample_timestamp: Optional[Time]
    last_delivered_ts: Optional[Time]
    last_filter_ts: Optional[Time]
    disposed_at: Optional[Time]
    no_writers_at: Optional[Time]
    owner_at: Optional[Time]
    current_owner: Optional[Tuple[bytes, int]]
    key_holder: Optional[bytes]
    writers: List[bytes]

    @staticmethod
    def from_bytes(b: bytes) -> InstanceState:
        key, handle, flags, holder, disposed, no_writers, registered, samples = struct.unpack_from(">16sQHHIIII", b)
        times = [Time(*struct.unpack_from(">iI", b, 44 + 8 * place)) if flags >> bit & 1 else None
                 for place, bit in enumerate((12, 11, 10, 9, 8, 6))]
        owner = struct.unpack_from(">16si", b, 92) if flags >> 7 & 1 else None
        return InstanceState(key, handle, InstanceStateKind(flags >> 14), disposed, no_writers, registered, samples,
                             bool(flags >> 13 & 1), *times, owner, b[112:112 + holder] if flags >> 5 & 1 else None,
                             _entries(b[256:], 16, flags & 0x1F))


@dataclass(frozen=True)
class WriterState:
    """A writer as its record has it."""

    guid: bytes
    state: WriterLiveliness
    kind: LivelinessKind
    lease: Optional[int]
    last_assert: int

    @staticmethod
    def from_bytes(b: bytes) -> WriterState:
        guid, flags, lease, last = struct.unpack(">16sB7xQQ", b)
        standing, kind = WriterLiveliness(flags >> 4 & 3), LivelinessKind(flags >> 6)
        return WriterState(guid, standing, kind, lease if flags >> 3 & 1 else None, last)


# ---- the library

VERSION = 0, 3

# What each function takes: L a pointer with its length, N a size_t, the others numbers as struct has them.
_TAKES = {
    "version": "", "call": "LLLLLLL", "fresh": "LLLL", "status": "LL", "changes": "LL",
    "should_deliver_under_time_based_filter": "LQQiIQL", "should_deliver_under_destination_order": "LQQiIBL",
    "last_delivered_ts": "LQQL", "next_handle_after": "LQL", "handle_at_position": "LNL", "holder_in_force": "LQQL",
    "writer_lookup": "LQQL", "would_leave_writerless": "LLIL", "left_writerless": "LLILL",
    "key_hash": "LQL", "wire_fraction": "IL", "wire_nanos": "IIL",
}
_NUMBERS = {"Q": ctypes.c_uint64, "I": ctypes.c_uint32, "i": ctypes.c_int32, "B": ctypes.c_uint8, "N": ctypes.c_size_t}


def _load() -> ctypes.CDLL:
    beside = os.path.join(os.path.dirname(os.path.abspath(__file__)), "..", "..", "lib")
    place = os.environ.get("DCPS_LIB_DIR", beside if os.path.exists(os.path.join(beside, "libdcps.so")) else "")
    library = ctypes.CDLL(os.path.join(place, "libdcps.so"))
    for name in _TAKES:
        getattr(library, "dcps_" + name).restype = ctypes.c_uint32
    return library


_library = _load()


def _ask(name: str, *arguments: Union[Buffer, bytes, int]) -> int:
    """A function of the library by its name: a buffer goes with its length, and a number has to fit."""
    words: list = []
    for takes, given in zip(_TAKES[name], arguments):
        if takes == "L":
            words += [given, ctypes.c_size_t(len(given))]
        else:
            number = _NUMBERS[takes](given)
            if number.value != given:
                raise OverflowError(f"{given} does not fit {name}")
            words.append(number)
    return getattr(_library, "dcps_" + name)(*words)


def _accepted(number: int) -> None:
    if number != 0:
        raise Refused(number)


class _Read(NamedTuple):
    """The 24 bytes that a read answers; `number` at 4 and `large` at 8 mean what the read says."""

    yes: int
    present: int
    stored: int
    number: int
    large: int
    sec: int
    nanosec: int


def _read(name: str, *arguments: Union[Buffer, bytes, int]) -> _Read:
    answer = _buffer(READ_BYTES)
    _accepted(_ask(name, *arguments, answer))
    return _Read(*struct.unpack(">x3BIQiI", answer.raw))


def call(head: Buffer, sheet: Union[Buffer, bytes], pens: Buffer, writers: Buffer, lost: Buffer, out: Buffer,
         answer: Buffer) -> int:
    """dcps_call as it is, over ctypes arrays of any lengths: its number."""
    return _ask("call", head, sheet, pens, writers, lost, out, answer)


def version() -> Tuple[int, int, int]:
    """The version of the library: major, minor, patch."""
    number = _ask("version")
    return number >> 16, number >> 8 & 0xFF, number & 0xFF


def _same_version(found: Tuple[int, int, int]) -> None:
    """Another minor version may lay the bytes out otherwise."""
    if found[:2] != VERSION:
        raise ImportError(f"dcps.py is for libdcps {VERSION[0]}.{VERSION[1]}, not for {found[0]}.{found[1]}")


_same_version(version())


def key_hash(serialized: bytes, largest: int) -> bytes:
    """The KeyHash of a serialized key (DDSI-RTPS 2.5, 9.6.4.8) of a type whose keys have `largest` bytes at most. Refused as 15,
    then 14.

    >>> key_hash(b"abc", 17).hex()
    '900150983cd24fb0d6963f7d28e17f72'
    """
    answer = _buffer(READ_BYTES)
    _accepted(_ask("key_hash", serialized, largest, answer))
    return answer.raw[8:24]


def wire_fraction(nanosec: int) -> WireFraction:
    """Nanoseconds as the fraction of a second that a stamp of RTPS carries. Refused as 4.

    >>> wire_fraction(100_000_000)
    WireFraction(fraction=429496729, remainder=600000000)
    """
    read = _read("wire_fraction", nanosec)
    return WireFraction(read.number, read.large)


def wire_nanos(fraction: int, remainder: int = REMAINDER_UNKNOWN) -> int:
    """The nanoseconds of a fraction; the remainder of one that came over the wire is unknown.

    >>> wire_nanos(429_496_729)
    100000000
    """
    return _read("wire_nanos", fraction, remainder).number


# ---- sheets

_SHEET = struct.Struct(">16s16sQiIiIQQiIBBH144s28x")


def _exactly(b: bytes, length: int) -> bytes:
    if len(b) != length:
        raise ValueError(f"{length} bytes are wanted, not {len(b)}")
    return b


def _nanos(nanoseconds: Optional[int]) -> int:
    """In 64 bits; a longer time is as good as the longest."""
    return min(nanoseconds or 0, NEVER)


def _strength(code: int, number: int) -> int:
    """In 32 bits: how many samples in note_taken and drain_samples, else a number with a sign."""
    low, high = (0, 2**32) if code in (12, 15) else (-2**31, 2**31)
    if not low <= number < high:
        raise OverflowError(f"{number} does not fit the strength of code {code}")
    return number & 0xFFFFFFFF


def sheet(code: int, *, key: bytes = bytes(16), guid: bytes = bytes(16), handle: int = 0, time_1: Optional[Time] = None,
          time_2: Time = Time(0), a: Optional[int] = None, b: Optional[int] = None, limit: int = 0, strength: int = 0,
          bits: int = 0, holder: Optional[bytes] = None) -> bytes:
    """The 256 bytes of a call, as include/dcps.h has them. A time 1 or holder that is given sets its bit. A holder that is too
    long goes by its length alone, which is refused as 6."""
    if time_1 is not None:
        bits |= BIT_TIME_1
    if holder is not None:
        bits |= BIT_HOLDER
    length = len(holder or b"")
    stored = (holder or b"") if length <= HOLDER_PLACES else b""
    return _SHEET.pack(_exactly(key, 16), _exactly(guid, 16), handle, *(time_1 or Time(0)), *time_2, _nanos(a), _nanos(b), limit,
                       _strength(code, strength), bits, code, min(length, 0xFFFF), stored)


def _optional(bit: int, value: Optional[int]) -> int:
    return 0 if value is None else bit


def _prefix(prefix: bytes) -> bytes:
    return _exactly(prefix, 12) + bytes(4)


def _halves(name: bytes) -> Tuple[int, int]:
    return struct.unpack(">QQ", _exactly(name, 16))


def _entries(b: bytes, length: int, count: int) -> List[bytes]:
    return [b[at:at + length] for at in range(0, count * length, length)]


def _gone(writers: Iterable[bytes]) -> bytes:
    return b"".join(_exactly(writer, 16) for writer in writers)


# ---- the state


class State:
    """The instances and the writers of one reader, with places for 128 instances or for 32."""

    def __init__(self, places: int = 128) -> None:
        """A fresh state; refused as 1 where places are neither 32 nor 128."""
        self._lend(places * INSTANCE_BYTES)
        _accepted(_ask("fresh", self._head, self._pens, self._writers, self._lost))

    def _lend(self, pens_bytes: int) -> None:
        self._head, self._pens = _buffer(HEAD_BYTES), _buffer(pens_bytes)
        self._writers, self._lost, self._out = _buffer(WRITERS_BYTES), _buffer(LOST_BYTES), _buffer(OUT_BYTES)

    @staticmethod
    def from_parts(head: bytes, pens: bytes, writers: bytes, lost: bytes) -> State:
        """The state of the bytes that another one gave by `parts`; refused as 1 or 3 for pens and contents; ValueError for
        another wrong length."""
        state = State.__new__(State)
        state._lend(len(pens))
        state._head.raw, state._pens.raw = _exactly(head, HEAD_BYTES), pens
        state._writers.raw, state._lost.raw = _exactly(writers, WRITERS_BYTES), _exactly(lost, LOST_BYTES)
        state.mark_view_seen(HANDLE_NIL)  # every call judges the state, and nil names no instance
        return state

    def parts(self) -> Tuple[bytes, bytes, bytes, bytes]:
        """Head, instances, writers and lost as the library lays them out."""
        return self._head.raw, self._pens.raw, self._writers.raw, self._lost.raw

    def __eq__(self, other: object) -> bool:
        return isinstance(other, State) and self.parts() == other.parts()

    def copy(self) -> State:
        """Another state with the same instances and writers."""
        return State.from_parts(*self.parts())

    def raw_call(self, sheet: bytes) -> Answer:
        """Any call, by the 256 bytes of its sheet; its list is in `out`."""
        answer = _buffer(ANSWER_BYTES)
        _accepted(call(self._head, sheet, self._pens, self._writers, self._lost, self._out, answer))
        return Answer.from_bytes(answer.raw)

    @property
    def out(self) -> bytes:
        """The list of the latest call that gave one stands at its front."""
        return self._out.raw

    def _handles(self, answer: Answer) -> List[int]:
        return list(struct.unpack_from(f">{answer.listed}Q", self.out))

    # -- calls on the instances: codes 1 to 21

    def register(self, keyhash: bytes, key_holder: bytes = b"", timestamp: Optional[Time] = None) -> int:
        """Made known or brought back, with one registration more and this holder: its handle. Refused as 4, 6, 9 or 13."""
        return self.raw_call(sheet(1, key=keyhash, holder=key_holder, time_1=timestamp)).handle

    def ensure_registered_limited(self, keyhash: bytes, max_instances: int = -1) -> Optional[int]:
        """Made known or brought back, with one registration at least; None at the limit. Refused as 9 or 13."""
        return self.raw_call(sheet(2, key=keyhash, limit=max_instances)).found

    def dispose(self, handle: int, timestamp: Optional[Time] = None) -> bool:
        """Disposed; False where the handle is unknown. Refused as 4."""
        return self.raw_call(sheet(3, handle=handle, time_1=timestamp)).yes

    def unregister(self, handle: int, timestamp: Optional[Time] = None) -> bool:
        """One registration fewer; False where the handle is unknown. Refused as 4."""
        return self.raw_call(sheet(4, handle=handle, time_1=timestamp)).yes

    def unregister_writer(self, handle: int, writer: bytes, timestamp: Optional[Time] = None) -> bool:
        """A writer leaves the set; False where the handle is unknown. Refused as 4."""
        return self.raw_call(sheet(5, handle=handle, guid=writer, time_1=timestamp)).yes

    def note_writer(self, handle: int, writer: bytes) -> None:
        """A writer joins the set. Refused as 10."""
        self.raw_call(sheet(6, handle=handle, guid=writer))

    def drop_writer(self, writer: bytes, timestamp: Optional[Time] = None) -> List[int]:
        """A writer leaves every set: the instances that it leaves without a writer. Refused as 4."""
        return self._handles(self.raw_call(sheet(7, guid=writer, time_1=timestamp)))

    def observe_lifecycle(self, keyhash: bytes, key_holder: Optional[bytes] = None, timestamp: Optional[Time] = None) -> int:
        """The instance of a dispose or unregister marker, made known and counted. Refused as 4, 6, 9 or 13."""
        return self.raw_call(sheet(8, key=keyhash, holder=key_holder, time_1=timestamp)).handle

    def observe_admitted(self, keyhash: bytes, key_holder: bytes, timestamp: Time,
                         max_instances: int = -1) -> Optional[Tuple[int, int]]:
        """A sample: handle and samples, None at the limit. Refused as 4, 6, 9 or 13."""
        answer = self.raw_call(sheet(9, key=keyhash, holder=key_holder, time_1=timestamp, limit=max_instances))
        return (answer.handle, answer.samples) if answer.present else None

    def note_admitted(self, keyhash: bytes, order_ts: Time, filter_ts: Time,
                      writer: bytes) -> Optional[Tuple[bool, InstanceStateKind, int, int]]:
        """A sample went into the cache: whether the instance is new, its kind and both generations. Refused as 4 or 10."""
        a = self.raw_call(sheet(10, key=keyhash, time_1=order_ts, time_2=filter_ts, guid=writer))
        return (a.view_new, a.kind, a.disposed_generation_count, a.no_writers_generation_count) if a.present else None

    def record_delivery(self, keyhash: bytes, sample_ts: Time) -> None:
        """A sample was delivered: the last of order and filter. Refused as 4."""
        self.raw_call(sheet(11, key=keyhash, time_1=sample_ts))

    def note_taken(self, handle: int, n: int) -> None:
        """So many samples fewer, and new no more."""
        self.raw_call(sheet(12, handle=handle, strength=n))

    def mark_view_seen(self, handle: int) -> None:
        """New no more."""
        self.raw_call(sheet(13, handle=handle))

    def mark_view_new(self, keyhash: bytes) -> bool:
        """New again; False where the key is unknown."""
        return self.raw_call(sheet(14, key=keyhash)).yes

    def drain_samples(self, handle: int, n: int) -> None:
        """So many samples fewer."""
        self.raw_call(sheet(15, handle=handle, strength=n))

    def accept_under_exclusive_ownership(self, keyhash: bytes, writer_guid: bytes, writer_strength: int, now: Time,
                                         deadline_nanos: Optional[int] = None) -> bool:
        """Whether a sample is accepted; its writer then owns the instance (DDS 1.4, 2.2.3.9.2). Refused as 4."""
        return self.raw_call(sheet(16, key=keyhash, guid=writer_guid, strength=writer_strength, time_2=now, b=deadline_nanos,
                                   bits=_optional(BIT_DEADLINE, deadline_nanos))).yes

    def update_owner_strength(self, writer: bytes, strength: int) -> None:
        """What the writer owns it holds at that strength."""
        self.raw_call(sheet(17, guid=writer, strength=strength))

    def clear_owner_for_writer(self, writer_guid: bytes) -> int:
        """A writer gives up what it owns: how many."""
        return self.raw_call(sheet(18, guid=writer_guid)).count

    def clear_owner_for_writer_prefix(self, prefix: bytes) -> int:
        """The writers of a participant give up what they own: how many."""
        return self.raw_call(sheet(19, guid=_prefix(prefix))).count

    def release_owner_of(self, keyhash: bytes, writer: bytes) -> bool:
        """A writer gives up an instance; whether it owned it."""
        return self.raw_call(sheet(20, key=keyhash, guid=writer)).yes

    def autopurge(self, now: Time, autopurge_disposed_delay_nanos: int, autopurge_nowriter_delay_nanos: int) -> int:
        """Instances that were not alive for their delay go: how many. NEVER is never. Refused as 4."""
        return self.raw_call(sheet(21, time_2=now, a=autopurge_disposed_delay_nanos, b=autopurge_nowriter_delay_nanos)).count

    # -- calls on the writers: codes 32 to 40

    def matched(self, writer: bytes, kind: LivelinessKind, lease: Optional[int], now: int) -> bool:
        """A writer matched; whether a count moved. Refused as 5 or 11; ValueError for a kind that is none."""
        return self.raw_call(sheet(32, guid=writer, a=now, b=lease, bits=LivelinessKind(kind) | _optional(BIT_LEASE, lease))).yes

    def unmatched(self, writer: bytes) -> bool:
        """A writer was deleted; whether a count moved."""
        return self.raw_call(sheet(33, guid=writer)).yes

    def lost_with_participant(self, writer: bytes) -> bool:
        """A writer's participant fell silent; whether a count moved."""
        return self.raw_call(sheet(34, guid=writer)).yes

    def writer_asserted(self, writer: bytes, now: int) -> bool:
        """A writer asserted itself; whether a count moved. Refused as 5."""
        return self.raw_call(sheet(35, guid=writer, a=now)).yes

    def participant_asserted(self, prefix: bytes, manual: bool, now: int) -> bool:
        """A participant was heard; whether a count moved. Refused as 5."""
        return self.raw_call(sheet(36, guid=_prefix(prefix), a=now, bits=BIT_MANUAL if manual else 0)).yes

    def expire(self, now: int) -> Tuple[bool, Optional[int]]:
        """Leases run out: whether a count moved, and when the next one does. Refused as 5 or 12."""
        answer = self.raw_call(sheet(37, a=now))
        return answer.yes, answer.next_due

    def take_lost(self) -> List[bytes]:
        """The writers that expired since the last time."""
        answer = self.raw_call(sheet(38))
        return _entries(self.out, 16, answer.listed)

    def take_status(self) -> LivelinessChangedStatus:
        """The status; its changes are then acknowledged."""
        return self.raw_call(sheet(39)).status

    def acknowledge(self, reported: LivelinessChangedStatus) -> None:
        """The changes of a status are pending no more. Refused as 8."""
        self.raw_call(sheet(40, limit=reported.alive_count_change, strength=reported.not_alive_count_change))

    # -- calls on both: codes 48 to 51

    def admit(self, sample: Sample) -> Admission:
        """A sample came in: order, filter, limit and ownership are asked, and it is counted. Refused as 4, 6, 9, 10 or 13."""
        bits = _optional(BIT_DEADLINE, sample.deadline_nanos) | (BIT_BY_SOURCE if sample.by_source_timestamp else 0)
        a = self.raw_call(sheet(
            48, key=sample.keyhash, guid=sample.writer, holder=sample.key_holder, time_1=sample.order_ts, bits=bits,
            time_2=sample.order_ts if sample.filter_ts is None else sample.filter_ts, a=sample.min_separation_nanos,
            b=sample.deadline_nanos, limit=sample.max_instances, strength=sample.strength))
        return Admission(Outcome(a.outcome), a.handle, a.samples, a.view_new, a.kind, a.disposed_generation_count,
                         a.no_writers_generation_count)

    def lapse(self, now: int, timestamp: Optional[Time] = None) -> Lapse:
        """Leases run out, and these writers leave their instances. Refused as 4, 5 or 12."""
        answer = self.raw_call(sheet(49, a=now, time_1=timestamp))
        return Lapse(answer.yes, answer.next_due, self._handles(answer), answer.count)

    def part(self, writer: bytes, timestamp: Optional[Time] = None) -> Parting:
        """A writer was deleted, and leaves its instances. Refused as 4."""
        answer = self.raw_call(sheet(50, guid=writer, time_1=timestamp))
        return Parting(answer.yes, self._handles(answer), answer.count)

    def depart(self, writer: bytes, timestamp: Optional[Time] = None) -> Parting:
        """A writer was lost with its participant, and leaves its instances. Refused as 4."""
        answer = self.raw_call(sheet(51, guid=writer, time_1=timestamp))
        return Parting(answer.yes, self._handles(answer), answer.count)

    # -- reads

    def should_deliver_under_time_based_filter(self, keyhash: bytes, sample_ts: Time, min_separation_nanos: int) -> bool:
        """Refused as 4."""
        return bool(_read("should_deliver_under_time_based_filter", self._pens, *_halves(keyhash), *sample_ts,
                          _nanos(min_separation_nanos)).yes)

    def should_deliver_under_destination_order(self, keyhash: bytes, source_ts: Time, by_source_timestamp: bool) -> bool:
        """Refused as 4."""
        return bool(_read("should_deliver_under_destination_order", self._pens, *_halves(keyhash), *source_ts,
                          int(by_source_timestamp)).yes)

    def last_delivered_ts(self, keyhash: bytes) -> Optional[Time]:
        """When a sample was delivered last."""
        read = _read("last_delivered_ts", self._pens, *_halves(keyhash))
        return Time(read.sec, read.nanosec) if read.present else None

    def next_handle_after(self, previous: int = HANDLE_NIL) -> Optional[int]:
        """The handle that follows another in the order of the keys."""
        read = _read("next_handle_after", self._pens, previous)
        return read.large if read.present else None

    def walk(self) -> Iterator[int]:
        """All handles, in the order of the keys."""
        for position in range(len(self)):
            yield _read("handle_at_position", self._pens, position).large

    def holder_in_force(self, keyhash: bytes, offered: bytes) -> bytes:
        """The bytes from which the key was made: those stored, else those offered."""
        read = _read("holder_in_force", self._pens, *_halves(keyhash))
        return self._pens.raw[read.large:read.large + read.number] if read.stored else offered

    def writer_lookup(self, writer: bytes) -> Optional[int]:
        """The first alive instance, in the order of the keys, that a writer writes."""
        read = _read("writer_lookup", self._pens, *_halves(writer))
        return read.large if read.present else None

    def would_leave_writerless(self, gone: Iterable[bytes], view_states: int = VIEW_NEW | VIEW_NOT_NEW) -> bool:
        """Whether the loss of these writers would leave an alive instance without one. Refused as 1 for more than 256."""
        return bool(_read("would_leave_writerless", self._pens, _gone(gone), view_states).yes)

    def left_writerless(self, gone: Iterable[bytes], view_states: int = VIEW_NEW | VIEW_NOT_NEW) -> List[int]:
        """Those instances, in the order of the keys. Refused as 1 for more than 256 writers."""
        out = _buffer(OUT_BYTES)
        read = _read("left_writerless", self._pens, _gone(gone), view_states, out)
        return list(struct.unpack_from(f">{read.number}Q", out.raw))

    def status(self) -> LivelinessChangedStatus:
        """The status, whose changes stay pending."""
        answer = _buffer(ANSWER_BYTES)
        _accepted(_ask("status", self._head, answer))
        return Answer.from_bytes(answer.raw).status

    def changes(self) -> int:
        """How often a writer moved one of the status's counts."""
        return _read("changes", self._head).large

    # -- what the records hold, decoded here

    def head(self) -> Head:
        """The counts of the head."""
        *counts, present, places, handle, changes, last = struct.unpack(">5I2iHHQQ16s", self._head.raw)
        return Head(*counts, places, handle, changes, last if present else None)

    @property
    def places(self) -> int:
        """For how many instances it has places."""
        return self.head().places

    def __len__(self) -> int:
        return self.head().instance_count

    def instances(self) -> List[InstanceState]:
        """The instances, in the order of their keys."""
        return [InstanceState.from_bytes(record) for record in _entries(self._pens.raw, INSTANCE_BYTES, len(self))]

    def writers(self) -> List[WriterState]:
        """The writers, in the order of their GUIDs, those that departed among them."""
        return [WriterState.from_bytes(record) for record in _entries(self._writers.raw, WRITER_BYTES, self.head().writer_count)]

    def lost(self) -> List[bytes]:
        """The writers that expired since take_lost, left in place."""
        return _entries(self._lost.raw, 16, self.head().lost_count)

    def get_by_keyhash(self, keyhash: bytes) -> Optional[InstanceState]:
        """The instance of a key."""
        return next((i for i in self.instances() if i.keyhash == keyhash), None)

    def get_by_handle(self, handle: int) -> Optional[InstanceState]:
        """The instance of a handle."""
        return next((i for i in self.instances() if i.handle == handle), None)

    def lookup(self, keyhash: bytes) -> Optional[int]:
        """The handle of a key."""
        instance = self.get_by_keyhash(keyhash)
        return instance.handle if instance else None
