"""The console reference model from Python, over libvb and vb.h.

`Machine` is a whole machine: memories, registers, and methods over the calls.

    import vb
    machine = vb.Machine(rom=bytes(1024))
    machine.run(8)
    machine.drawing.bkcol = 2
    machine.draw_frame(0)
    assert machine.pixel(0, 0, 0, 0) == 2

The header is read when this module is loaded, and everything in it has the same name here: the records (vb_processor,
vb_drawing, ..), the numbers (VB_HALTED, ..) and the calls (vb_run, vb_draw_frame, ..). A pointer with its length is one
argument: a bytearray or another writable buffer where the call writes, also bytes or another read-only buffer where it
only reads, None for no bytes. Nothing is kept between calls. Buffers of one call must not overlap; where one of them
is written and they do, ValueError is raised. A number outside its argument's or its field's range is an OverflowError.

libvb.so is found by the loader, else in target/vb/lib of the repository, where `make lib` puts it; VB_SHARED names
another one.
"""

import ctypes
import itertools
import operator
import os
import pathlib
import re

try:
    import numpy
except ImportError:
    numpy = None

_HERE = pathlib.Path(__file__).resolve().parent
_ROOT = _HERE.parent.parent
HEADER = next((path for path in (_HERE / "vb.h", _ROOT / "include" / "vb.h") if path.exists()), None)

COLUMNS, ROWS = 384, 224

_NUMBERS = {
    "uint8_t": ctypes.c_uint8,
    "uint16_t": ctypes.c_uint16,
    "uint32_t": ctypes.c_uint32,
    "uint64_t": ctypes.c_uint64,
    "size_t": ctypes.c_size_t,
}


class Refusal(ValueError):
    """A call refused: `number` is the specification's; of a run or a replay `count` steps were made before it."""

    def __init__(self, number, count=0):
        super().__init__(f"refusal {number}: {vb_refusal_text(number)}")
        self.number = number
        self.count = count


def _within(value, most, name):
    """A whole number from 0 to most, or an error that names what was given and what is allowed."""
    number = operator.index(value)
    if not 0 <= number <= most:
        raise OverflowError(f"{name} is {number}; it must be from 0 to {most}")
    return number


class _Record(ctypes.Structure):
    """A record of vb.h, whose numbers stay within their fields."""

    def __setattr__(self, name, value):
        most = self._most.get(name)
        if most is None and not hasattr(type(self), name):
            raise AttributeError(f"{type(self).__name__} has no field {name}")
        if isinstance(value, (list, tuple)):
            getattr(self, name)[:] = value
        else:
            super().__setattr__(name, value if most is None else _within(value, most, name))

    def _values(self):
        """The fields by name, arrays as lists."""
        values = ((field[0], getattr(self, field[0])) for field in self._fields_)
        return {name: list(value) if isinstance(value, ctypes.Array) else value for name, value in values}

    def __eq__(self, other):
        return self._values() == other._values() if type(other) is type(self) else NotImplemented

    __hash__ = None

    def __repr__(self):
        return f"{type(self).__name__}({', '.join(f'{name}={value!r}' for name, value in self._values().items())})"

    def copy(self):
        """Another record with the same contents."""
        return type(self).from_buffer_copy(self)


def _array(kind, length):
    """An array of a record's, whose numbers stay within their kind."""
    most = 256 ** ctypes.sizeof(kind) - 1

    class Array(ctypes.Array):
        _type_ = kind
        _length_ = length

        def __setitem__(self, place, value):
            if isinstance(place, slice):
                value = [_within(number, most, "an item") for number in value]
            else:
                value = _within(value, most, f"item {place}")
            super().__setitem__(place, value)

    return Array


class _PyBuffer(ctypes.Structure):
    """Py_buffer of Python's C interface."""

    _fields_ = [
        ("buf", ctypes.c_void_p),
        ("obj", ctypes.c_void_p),
        ("len", ctypes.c_ssize_t),
        ("itemsize", ctypes.c_ssize_t),
        ("readonly", ctypes.c_int),
        ("ndim", ctypes.c_int),
        ("format", ctypes.c_char_p),
        ("shape", ctypes.c_void_p),
        ("strides", ctypes.c_void_p),
        ("suboffsets", ctypes.c_void_p),
        ("internal", ctypes.c_void_p),
    ]


_get_buffer = ctypes.pythonapi.PyObject_GetBuffer
_get_buffer.argtypes = [ctypes.py_object, ctypes.POINTER(_PyBuffer), ctypes.c_int]
_release = ctypes.pythonapi.PyBuffer_Release
_release.argtypes = [ctypes.POINTER(_PyBuffer)]
_release.restype = None


class _Borrowed:
    """A buffer while a call uses it: its address, its length in bytes, and whether it is written."""

    __slots__ = ("address", "length", "writable", "_buffer", "_held")

    def __init__(self, given, writable, name):
        self._buffer = None
        self.address, self.length, self.writable = None, 0, writable
        if given is None:
            return
        if type(given) is bytearray and given:
            self._held = ctypes.c_char.from_buffer(given)
            self.address, self.length = ctypes.addressof(self._held), len(given)
            return
        buffer = _PyBuffer()
        try:
            _get_buffer(given, buffer, 1 if writable else 0)
        except (BufferError, TypeError, ValueError) as error:
            kind = "a bytearray or another writable buffer" if writable else "bytes or another buffer in one piece"
            what = "is written to, so it" if writable else "is read, so it"
            raise TypeError(f"{name} {what} must be {kind}, not {type(given).__name__}") from error
        self._buffer = buffer
        self.address, self.length = (buffer.buf if buffer.len else None), buffer.len

    def __del__(self):
        if self._buffer is not None:
            _release(self._buffer)
            self._buffer = None


def _apart(buffers, names):
    """Buffers of one call must not overlap where one of them is written."""
    ranges = sorted([(b.address, b.address + b.length, b.writable, n) for b, n in zip(buffers, names) if b.length])
    for (_, end, first, name), (start, _, second, other) in itertools.combinations(ranges, 2):
        if start < end and (first or second):
            raise ValueError(f"{name} and {other} share bytes; each must be a separate buffer")


class _Call:
    """A call of the library, with a pointer and its length as one argument."""

    def __init__(self, function, name, parameters):
        self.function, self.__name__, self.parameters = function, name, parameters
        self.names = [parameter[0] for parameter in parameters]
        self.__doc__ = f"{name}({', '.join(self.names)})"

    def __repr__(self):
        return f"<call {self.__doc__}>"

    def __call__(self, *given):
        if len(given) != len(self.parameters):
            raise TypeError(f"{self.__name__} takes {len(self.parameters)} arguments: {', '.join(self.names)}")
        passed, buffers, names = [], [], []
        for value, (name, kind, writable) in zip(given, self.parameters):
            if writable is None:
                outside = type(kind) is int and not (type(value) is int and 0 <= value <= kind)
                passed.append(_within(value, kind, f"{self.__name__}: {name}") if outside else value)
            elif value is None or type(value) is bytes and not writable:
                passed += (value, len(value) // kind if value else 0)  # no other buffer shares its bytes
            else:
                buffer = _Borrowed(value, writable, f"{self.__name__}: {name}")
                buffers.append(buffer)
                names.append(name)
                passed += (buffer.address, buffer.length // kind)
        if len(buffers) > 1:
            _apart(buffers, names)
        return self.function(*passed)


def _plain(text):
    """The header without comments, a macro's lines joined."""
    return re.sub(r"/\*.*?\*/", " ", text, flags=re.S).replace("\\\n", " ")


def _fields(body):
    """`uint16_t spt[4], bkcol;` and so on as ctypes has them, and each number's largest value."""
    fields, most = [], {}
    for line in filter(None, (part.strip() for part in body.split(";"))):
        kind, names = line.split(None, 1)
        kind = _NUMBERS.get(kind) or globals()[kind]
        for name in names.split(","):
            name, length = re.fullmatch(r"\s*(\w+)(?:\[(\w+)\])?\s*", name).groups()
            fields.append((name, _array(kind, int(length)) if length else kind))
            if not length and kind in _NUMBERS.values():
                most[name] = 256 ** ctypes.sizeof(kind) - 1
    return fields, most


def _parameters(text):
    """A call's arguments: a buffer as (name, bytes an item, writable), a number as (name, largest, None), a record as
    (name, its type, None)."""
    found = []
    for part in filter(lambda part: part not in ("", "void"), (part.strip() for part in text.split(","))):
        const, kind, star, name = re.fullmatch(r"(const )?(\w+) ?(\*?) ?(\w+)", part).groups()
        if star:
            found.append((name, ctypes.sizeof(_NUMBERS[kind]), const is None))
        elif not (name.endswith("_len") and found and found[-1][0] == name[:-4]):
            number = _NUMBERS.get(kind)
            found.append((name, 256 ** ctypes.sizeof(number) - 1 if number else globals()[kind], None))
    return found


def _argument_types(parameters):
    types = []
    for _, kind, writable in parameters:
        if writable is not None:
            types += [ctypes.c_void_p, ctypes.c_size_t]
        else:
            types.append({0xFF: ctypes.c_uint8, 0xFFFF: ctypes.c_uint16, 0xFFFFFFFF: ctypes.c_uint32,
                          2**64 - 1: ctypes.c_uint64}[kind] if isinstance(kind, int) else kind)
    return types


def _library(number):
    """libvb.so: VB_SHARED's, the loader's, or the repository's."""
    name = f"libvb.so.{number}"
    if "VB_SHARED" in os.environ:
        return ctypes.CDLL(os.environ["VB_SHARED"])
    try:
        return ctypes.CDLL(name)
    except OSError:
        built = _ROOT / "target" / "vb" / "lib" / name
        if not built.exists():
            raise ImportError(f"there is no {name} where the loader looks, and no {built}; make it with: make lib") from None
        return ctypes.CDLL(str(built))


def _load():
    """Everything that the header has, under its name."""
    if HEADER is None:
        raise ImportError(f"there is no vb.h in {_HERE} or {_ROOT / 'include'}")
    names, text = globals(), _plain(HEADER.read_text())
    macros = {name: rest.strip() for name, rest in re.findall(r"^#define (VB_\w+)[ \t]+(.+)$", text, flags=re.M)}
    for name, value in macros.items():
        if re.fullmatch(r"\d+u?", value):
            names[name] = int(value.rstrip("u"))
    for name, value in re.findall(r"(VB_\w+) = (0x[0-9A-Fa-f]+|\d+)", text):
        names[name] = int(value, 0)
    library = _library(names["VB_VERSION"])
    for body, name in re.findall(r"typedef struct \{(.*?)\} (\w+);", text, flags=re.S):
        fields, most = _fields(body)
        names[name] = type(name, (_Record,), {"_most": most, "_fields_": fields, "__doc__": f"{name} of vb.h"})
        RECORDS.append(names[name])
    for answer, name, arguments in re.findall(r"^((?:const )?\w+ \*?)(vb_\w+)\((.*?)\);", text, flags=re.M | re.S):
        for macro, rest in sorted(macros.items(), key=lambda item: -len(item[0])):
            arguments = arguments.replace(macro, rest)
        parameters = _parameters(re.sub(r"\s+", " ", arguments))
        function, answer = getattr(library, name), answer.strip()
        function.argtypes = _argument_types(parameters)
        if answer == "const char *":
            function.restype, function.errcheck = ctypes.c_char_p, lambda text, *_: text.decode()
        else:
            function.restype = _NUMBERS.get(answer) or names[answer]
        names[name] = _Call(function, name, parameters)
        CALLS.append(name)
    if vb_version() != names["VB_VERSION"]:
        raise ImportError(f"{library._name} has VB_VERSION {vb_version()}, {HEADER} has {names['VB_VERSION']}")


RECORDS = []
CALLS = []
_load()


def pixel(vram, frame, eye, x, y):
    """The value, 0 to 3, of a pixel of a frame buffer: eye 0 is the left one, y may be up to 255."""
    for value, most, name in ((frame, 1, "frame"), (eye, 1, "eye"), (x, COLUMNS - 1, "x"), (y, 255, "y")):
        _within(value, most, name)
    at = 0x8000 * frame + 0x10000 * eye + 64 * x + y // 4
    return vram[at] >> (2 * (y % 4)) & 3


def pixels(vram, frame, eye):
    """An eye's image of 384 by 224 pixels, values 0 to 3: a numpy array of 224 rows, or 224 bytes objects without numpy."""
    _within(frame, 1, "frame")
    _within(eye, 1, "eye")
    at = 0x8000 * frame + 0x10000 * eye
    if numpy is not None:
        columns = numpy.frombuffer(vram, numpy.uint8, COLUMNS * 64, at).reshape(COLUMNS, 64)[:, : ROWS // 4]
        shades = columns[:, :, None] >> numpy.array([0, 2, 4, 6], numpy.uint8) & 3
        return numpy.ascontiguousarray(shades.reshape(COLUMNS, ROWS).T)
    view = memoryview(vram).cast("B")
    rows = []
    for four in range(ROWS // 4):
        packed = bytes(view[at + four : at + COLUMNS * 64 : 64])
        rows += [packed.translate(_SHADES[k]) for k in range(4)]
    return rows


# the k-th pixel of a byte
_SHADES = [bytes(byte >> 2 * k & 3 for byte in range(256)) for k in range(4)]


_MEMORIES = ("rom", "wram", "vram", "pak")


class Machine:
    """A machine: its memories, the processor's record and the drawing registers.

    rom is read; wram, vram and pak are written, new ones of zeros by default and no pak RAM. A machine starts as after
    a reset. processor and drawing are records of vb.h and may be changed between calls, as may the memories. A
    refused call raises Refusal and changes nothing, but for refusal 6 of a run.
    """

    def __init__(self, rom, wram=None, vram=None, pak=None):
        self.rom = rom
        self.wram = bytearray(65536) if wram is None else wram
        self.vram = bytearray(262144) if vram is None else vram
        self.pak = pak
        self._buffers = [_Borrowed(getattr(self, name), name != "rom", name) for name in _MEMORIES]
        _apart(self._buffers, _MEMORIES)
        self._memories = tuple(part for b in self._buffers for part in (b.address, b.length))
        self._vram = self._memories[4:6]
        self._step, self._run = vb_step.function, vb_run.function
        self.reset()

    def reset(self):
        """The registers as after a reset; memories stay."""
        machine = vb_reset()
        self.processor, self.drawing = machine.processor, machine.drawing

    def step(self):
        """One step: what it did (answer, code) and which bytes it read that are undefined, as vb_stepped."""
        stepped = self._step(*self._memories, self.processor, self.drawing)
        if stepped.refusal:
            raise Refusal(stepped.refusal)
        self.processor, self.drawing = stepped.processor, stepped.drawing
        return stepped

    def run(self, budget):
        """At most so many instructions; gives how many were completed. Refusal 6 keeps those before it."""
        ran = self._run(*self._memories, self.processor, self.drawing, _within(budget, 2**64 - 1, "budget"))
        if ran.refusal in (0, 6):
            self.processor, self.drawing = ran.processor, ran.drawing
        if ran.refusal:
            raise Refusal(ran.refusal, ran.count)
        return ran.count

    def replay(self, trace):
        """Steps along a trace of 16 bytes per record and compares; vb_replayed says how it ended."""
        borrowed = self._borrowed(trace, "trace")
        replayed = vb_replay.function(*self._memories, self.processor, self.drawing, borrowed.address, borrowed.length)
        if replayed.refusal in (0, 6):
            self.processor, self.drawing = replayed.processor, replayed.drawing
        if replayed.refusal:
            raise Refusal(replayed.refusal, replayed.agreed)
        return replayed

    def _borrowed(self, given, name):
        """A buffer that a call reads while it writes the memories."""
        borrowed = _Borrowed(given, False, name)
        _apart([*self._buffers, borrowed], (*_MEMORIES, name))
        return borrowed

    def tick(self):
        """One tick of the timer."""
        ticked = vb_tick(self.processor.hardware)
        if ticked.refusal:
            raise Refusal(ticked.refusal)
        self.processor.hardware = ticked.hardware

    def load(self, address, size=4):
        """The value of 1, 2 or 4 bytes at an address."""
        call = _of_size(_LOADS, size)
        where = _within(address, 0xFFFFFFFF, "address")
        loaded = call.function(*self._memories, self.drawing, self.processor.hardware, where)
        if loaded.refusal:
            raise Refusal(loaded.refusal)
        return loaded.value

    def store(self, address, value, size=4):
        """Stores 1, 2 or 4 bytes at an address. The value is a register's: a byte is stored of its low 8 bits."""
        call = _of_size(_STORES, size)
        where, word = _within(address, 0xFFFFFFFF, "address"), _within(value, 0xFFFFFFFF, "value")
        stored = call.function(*self._memories, self.drawing, self.processor.hardware, where, word)
        if stored.refusal:
            raise Refusal(stored.refusal)
        self.drawing, self.processor.hardware = stored.drawing, stored.hardware

    def draw_frame(self, frame):
        """Draws frame buffer 0 or 1 of both eyes into VRAM."""
        refusal = vb_draw_frame.function(*self._vram, self.drawing, _within(frame, 0xFFFFFFFF, "frame"))
        if refusal:
            raise Refusal(refusal)

    def pixel(self, frame, eye, x, y):
        """The value, 0 to 3, of a pixel of a frame buffer: eye 0 is the left one."""
        return pixel(self.vram, frame, eye, x, y)

    def pixels(self, frame, eye):
        """An eye's image of 384 by 224 pixels, values 0 to 3: a numpy array of 224 rows, or 224 bytes objects."""
        return pixels(self.vram, frame, eye)

    def save(self):
        """A saved state of form 2, without ROM."""
        pak = self._memories[7]
        state = bytearray(327976 + pak if pak else 327962)
        borrowed = _Borrowed(state, True, "state")
        refusal = vb_write_state_2.function(*self._memories, self.processor, self.drawing, borrowed.address, borrowed.length)
        if refusal:
            raise Refusal(refusal)
        del borrowed
        return bytes(state)

    def restore(self, state):
        """Memories and registers from a saved state of either form."""
        borrowed = self._borrowed(state, "state")
        call = vb_read_state.function
        restored = call(*self._memories, self.processor, self.drawing, borrowed.address, borrowed.length)
        if restored.refusal:
            raise Refusal(restored.refusal)
        self.processor, self.drawing = restored.processor, restored.drawing


_LOADS = {1: vb_load_byte, 2: vb_load_half, 4: vb_load_word}
_STORES = {1: vb_store_byte, 2: vb_store_half, 4: vb_store_word}


def _of_size(calls, size):
    if size not in calls:
        raise ValueError(f"size is {size}; it must be 1, 2 or 4")
    return calls[size]
