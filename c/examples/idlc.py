"""Accepted tables in Python, over libidlc.so.0:

    table = Table.compile("struct Point {long x; long y;};", "dist/c/libidlc.so.0")
    octets = table.encode("Point", {"x": 3, "y": -4})
    value, taken = table.decode("Point", octets)

A value is what `json` makes of its text, octets together may be `bytes`. A table serves several threads, one at a time.
"""
import ctypes
import json
import threading

NO_ROOM = 45
FAULTY_IDL = 47


class Refused(Exception):
    """A call was refused; `number` is that of idlc.h, of faulty IDL the fault's; of a text `line` and `column` are set."""

    def __init__(self, number, line=0, column=0):
        super().__init__(f"refused: {number}" + (f", line {line}" if line else ""))
        self.number, self.line, self.column = number, line, column


class _Handle(ctypes.Structure):
    _fields_ = [("at", ctypes.c_void_p), ("loaded", ctypes.c_bool)]


class _Refusal(ctypes.Structure):
    _fields_ = [(name, ctypes.c_uint32) for name in ("number", "program", "routine", "place", "node")]


class _Place(ctypes.Structure):
    _fields_ = [("number", ctypes.c_uint32), ("line", ctypes.c_size_t), ("column", ctypes.c_size_t)]


def _done(number):
    if number:
        raise Refused(number)


def _octets(octets):
    """What C wants of octets: where they are, and how many."""
    return octets, ctypes.c_size_t(len(octets))


class Table:
    """A table that was found right."""

    def __init__(self, octets, library="libidlc.so.0"):
        self._begin(library)
        _done(self._call("load", *_octets(octets), ctypes.byref(_Refusal())))

    @classmethod
    def compile(cls, idl, library="libidlc.so.0"):
        """The table of an IDL text, as a preprocessor leaves it."""
        table = cls.__new__(cls)
        table._begin(library)
        place = _Place()
        number = table._call("compile", *_octets(idl.encode()), ctypes.byref(place))
        if number == FAULTY_IDL:
            raise Refused(place.number, place.line)
        _done(number)
        return table

    def another(self):
        """Another owner of the same table, which serves other threads at the same time."""
        other = Table.__new__(Table)
        other._begin(self._library._name)
        _done(self._call("share", ctypes.byref(other._handle)))
        return other

    def _begin(self, library):
        self._library, self._handle, self._lock = ctypes.CDLL(library), _Handle(), threading.Lock()

    def _call(self, name, *words):
        with self._lock:
            return getattr(self._library, f"idlc_{name}")(ctypes.byref(self._handle), *words)

    def __del__(self):
        self._call("free")

    def _value(self, name, little, pos):
        """What C wants of a value: the node of its type, the order and the position."""
        node = ctypes.c_uint32()
        _done(self._call("find", *_octets(name.encode()), ctypes.byref(node)))
        return node, ctypes.c_bool(little), ctypes.c_uint64(pos)

    def _handed(self, name, *given, behind=()):
        """What a call writes, which is asked for its length first."""
        size = ctypes.c_size_t()
        number = self._call(name, *given, ctypes.create_string_buffer(1), ctypes.c_size_t(0), ctypes.byref(size), *behind)
        if number != NO_ROOM:
            return number, b""
        out = ctypes.create_string_buffer(size.value)
        return self._call(name, *given, out, size, ctypes.byref(size), *behind), out.raw

    def encode(self, name, value, little=False, pos=0):
        """The octets of a value."""
        text, place = json.dumps(value, default=bytes.hex).encode(), _Place()
        given = (*self._value(name, little, pos), *_octets(text))
        number, octets = self._handed("encode_text", *given, behind=(ctypes.byref(place),))
        if number:
            raise Refused(number, place.line, place.column)
        return octets

    def decode(self, name, octets, little=False, pos=0):
        """The value that a front of the octets encodes, and how many octets that front has."""
        text, taken = self._decoded("decode_text", name, octets, little, pos)
        return json.loads(text), taken

    def encode_tape(self, name, tape, little=False, pos=0):
        """The octets of the value that the tape is."""
        number, octets = self._handed("encode", *self._value(name, little, pos), *_octets(tape))
        _done(number)
        return octets

    def decode_tape(self, name, octets, little=False, pos=0):
        """The tape of the value that a front of the octets encodes, and how many octets that front has."""
        return self._decoded("decode", name, octets, little, pos)

    def _decoded(self, call, name, octets, little, pos):
        taken = ctypes.c_size_t()
        given = (*self._value(name, little, pos), *_octets(octets), ctypes.byref(taken))
        number, out = self._handed(call, *given)
        _done(number)
        return out, taken.value
