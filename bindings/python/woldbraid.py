"""Readers of formats over input that comes in pieces, and writers of them, by ctypes over libwoldbraid.

    >>> from woldbraid import csv_records, json_events, resp_events
    >>> list(json_events([b'{"a": [1, tr', b'ue]}']))
    [('start_object', None), ('key', 'a'), ('start_array', None), ('number', 1), ('boolean', True), ('end_array', None), ('end_object', None)]
    >>> list(csv_records([b'a,"b', b'"\n']))
    [[b'a', b'b']]
    >>> list(resp_events([b'*2\\r\\n:7\\r\\n$2\\r', b'\\nab\\r\\n']))
    [('start_array', 2), ('integer', 7), ('bulk', b'ab'), ('end_array', None)]
    >>> from woldbraid import CsvWriter, JsonWriter, RespWriter
    >>> writer = JsonWriter()
    >>> writer.write({'a': [1, True]})
    >>> writer.take()
    b'{"a":[1,true]}'
    >>> writer = CsvWriter()
    >>> writer.record([b'a', b'b,c'])
    >>> writer.take()
    b'a,"b,c"\\r\\n'
    >>> writer = RespWriter()
    >>> writer.command([b'GET', b'key'])
    >>> writer.take()
    b'*2\\r\\n$3\\r\\nGET\\r\\n$3\\r\\nkey\\r\\n'

Pieces are any iterable of bytes, such as a file that was opened in binary mode, or the bytes of a whole text. The library is the file that the environment variable WOLDBRAID_LIBRARY names, else
`../../lib/libwoldbraid.so` from the folder of this file, else the one that the system finds.
"""
import ctypes
import ctypes.util
import os

OK, DONE, NEEDS_MORE, FULL, ENDED, TOO_LONG, REFUSED, DAMAGED, UNEXPECTED, TOO_DEEP, ENDS_EARLY, OTHER_FORMAT, NO_NUMBER, BAD_UTF8, LINE_END = range(15)
MISUSED = 100
KINDS = ("none", "start_array", "end_array", "start_object", "end_object", "key", "null", "boolean", "boolean", "number", "string")
TRUE, NUMBER = 8, 9
# The calls of writers that take a text, and those that take nothing.
TEXT_CALLS = (
    "json_write_number", "json_write_string", "json_write_key", "csv_write_field", "resp_write_simple", "resp_write_error", "resp_write_bulk",
)
PLAIN_CALLS = (
    "json_write_null", "json_start_array", "json_end_array", "json_start_object", "json_end_object", "csv_end_record", "resp_write_null_bulk",
    "resp_write_null_array",
)
RESP_KINDS = ("none", "start_array", "end_array", "simple", "error", "integer", "bulk", "null_bulk", "null_array")


class JsonLimits(ctypes.Structure):
    """What a reader may keep."""

    _fields_ = [("depth", ctypes.c_size_t), ("kept", ctypes.c_size_t)]


class JsonEvent(ctypes.Structure):
    """An event, or why there is none."""

    _fields_ = [
        ("kind", ctypes.c_uint32),
        ("cause", ctypes.c_uint32),
        ("text", ctypes.c_void_p),
        ("length", ctypes.c_size_t),
        ("integer", ctypes.c_int64),
        ("place", ctypes.c_size_t),
        ("has_integer", ctypes.c_bool),
    ]


class CsvLimits(ctypes.Structure):
    """What a reader may keep."""

    _fields_ = [("kept", ctypes.c_size_t)]


class CsvRecord(ctypes.Structure):
    """A record, or why there is none."""

    _fields_ = [("text", ctypes.c_void_p), ("ends", ctypes.POINTER(ctypes.c_size_t)), ("count", ctypes.c_size_t), ("place", ctypes.c_size_t)]


class RespLimits(ctypes.Structure):
    """What a reader may keep."""

    _fields_ = [("depth", ctypes.c_size_t), ("longest", ctypes.c_size_t), ("kept", ctypes.c_size_t)]


class RespEvent(ctypes.Structure):
    """An event of replies, or why there is none."""

    _fields_ = [
        ("kind", ctypes.c_uint32),
        ("cause", ctypes.c_uint32),
        ("text", ctypes.c_void_p),
        ("length", ctypes.c_size_t),
        ("integer", ctypes.c_int64),
        ("count", ctypes.c_size_t),
        ("place", ctypes.c_size_t),
    ]


class Written(ctypes.Structure):
    """What a writer has written, and was not dropped."""

    _fields_ = [("text", ctypes.c_void_p), ("length", ctypes.c_size_t)]


def load():
    """Returns the library, with the types of its calls."""
    beside = os.path.join(os.path.dirname(os.path.abspath(__file__)), "..", "..", "lib", "libwoldbraid.so")
    found = os.environ.get("WOLDBRAID_LIBRARY") or (beside if os.path.exists(beside) else ctypes.util.find_library("woldbraid"))
    if not found:
        raise OSError("libwoldbraid is not found: set WOLDBRAID_LIBRARY to its file")
    library = ctypes.CDLL(found)
    for name, result, arguments in (
        ("wb_json_new", ctypes.c_void_p, [ctypes.POINTER(JsonLimits)]),
        ("wb_json_of", ctypes.c_void_p, [ctypes.c_char_p, ctypes.c_size_t, ctypes.POINTER(JsonLimits)]),
        ("wb_json_push", ctypes.c_uint32, [ctypes.c_void_p, ctypes.c_char_p, ctypes.c_size_t]),
        ("wb_json_end", ctypes.c_uint32, [ctypes.c_void_p]),
        ("wb_json_next", ctypes.c_uint32, [ctypes.c_void_p, ctypes.POINTER(JsonEvent)]),
        ("wb_json_fed", ctypes.c_size_t, [ctypes.c_void_p]),
        ("wb_json_held", ctypes.c_size_t, [ctypes.c_void_p]),
        ("wb_json_place", ctypes.c_size_t, [ctypes.c_void_p]),
        ("wb_json_level", ctypes.c_size_t, [ctypes.c_void_p]),
        ("wb_json_free", None, [ctypes.c_void_p]),
        ("wb_csv_new", ctypes.c_void_p, [ctypes.POINTER(CsvLimits)]),
        ("wb_csv_of", ctypes.c_void_p, [ctypes.c_char_p, ctypes.c_size_t, ctypes.POINTER(CsvLimits)]),
        ("wb_csv_push", ctypes.c_uint32, [ctypes.c_void_p, ctypes.c_char_p, ctypes.c_size_t]),
        ("wb_csv_end", ctypes.c_uint32, [ctypes.c_void_p]),
        ("wb_csv_next", ctypes.c_uint32, [ctypes.c_void_p, ctypes.POINTER(CsvRecord)]),
        ("wb_csv_fed", ctypes.c_size_t, [ctypes.c_void_p]),
        ("wb_csv_held", ctypes.c_size_t, [ctypes.c_void_p]),
        ("wb_csv_place", ctypes.c_size_t, [ctypes.c_void_p]),
        ("wb_csv_free", None, [ctypes.c_void_p]),
        ("wb_resp_new", ctypes.c_void_p, [ctypes.POINTER(RespLimits)]),
        ("wb_resp_of", ctypes.c_void_p, [ctypes.c_char_p, ctypes.c_size_t, ctypes.POINTER(RespLimits)]),
        ("wb_resp_push", ctypes.c_uint32, [ctypes.c_void_p, ctypes.c_char_p, ctypes.c_size_t]),
        ("wb_resp_end", ctypes.c_uint32, [ctypes.c_void_p]),
        ("wb_resp_next", ctypes.c_uint32, [ctypes.c_void_p, ctypes.POINTER(RespEvent)]),
        ("wb_resp_fed", ctypes.c_size_t, [ctypes.c_void_p]),
        ("wb_resp_held", ctypes.c_size_t, [ctypes.c_void_p]),
        ("wb_resp_place", ctypes.c_size_t, [ctypes.c_void_p]),
        ("wb_resp_level", ctypes.c_size_t, [ctypes.c_void_p]),
        ("wb_resp_free", None, [ctypes.c_void_p]),
        ("wb_resp_cause_text", ctypes.c_char_p, [ctypes.c_uint32]),
        ("wb_status_text", ctypes.c_char_p, [ctypes.c_uint32]),
        ("wb_json_cause_text", ctypes.c_char_p, [ctypes.c_uint32]),
        ("wb_json_writer_new", ctypes.c_void_p, [ctypes.c_size_t]),
        ("wb_csv_writer_new", ctypes.c_void_p, []),
        ("wb_resp_writer_new", ctypes.c_void_p, []),
        ("wb_json_write_bool", ctypes.c_uint32, [ctypes.c_void_p, ctypes.c_bool]),
        ("wb_json_write_integer", ctypes.c_uint32, [ctypes.c_void_p, ctypes.c_int64]),
        ("wb_resp_write_integer", ctypes.c_uint32, [ctypes.c_void_p, ctypes.c_int64]),
        ("wb_resp_write_array", ctypes.c_uint32, [ctypes.c_void_p, ctypes.c_size_t]),
        ("wb_resp_write_command", ctypes.c_uint32, [ctypes.c_void_p, ctypes.c_size_t, ctypes.POINTER(ctypes.c_char_p), ctypes.POINTER(ctypes.c_size_t)]),
        ("wb_json_writer_level", ctypes.c_size_t, [ctypes.c_void_p]),
        *((f"wb_{it}", ctypes.c_uint32, [ctypes.c_void_p, ctypes.c_char_p, ctypes.c_size_t]) for it in TEXT_CALLS),
        *((f"wb_{it}", ctypes.c_uint32, [ctypes.c_void_p]) for it in PLAIN_CALLS),
        *((f"wb_{it}_written", ctypes.c_uint32, [ctypes.c_void_p, ctypes.POINTER(Written)]) for it in ("json", "csv", "resp")),
        *((f"wb_{it}_forget", ctypes.c_uint32, [ctypes.c_void_p]) for it in ("json", "csv", "resp")),
        *((f"wb_{it}_writer_free", None, [ctypes.c_void_p]) for it in ("json", "csv", "resp")),
        *((f"wb_{it}_is_whole", ctypes.c_bool, [ctypes.c_void_p]) for it in ("json", "csv")),
    ):
        call = getattr(library, name)
        call.restype, call.argtypes = result, arguments
    return library


LIBRARY = load()


class ReadError(ValueError):
    """Why there is no event: `status`, and `place`, the offset of an error in bytes, or None; `cause` is the number of what is wrong, or 0."""

    def __init__(self, status, place=None, cause=0, cause_text=None):
        self.status, self.place, self.cause = status, place, cause
        text = cause_text(cause) if cause else LIBRARY.wb_status_text(status)
        super().__init__(text.decode() + ("" if place is None else f", at byte {place}"))


class JsonReader:
    """A reader of the events of a JSON text, of values within `depth` arrays and objects; `kept` bytes may wait to be read when a piece is pushed."""

    def __init__(self, depth=512, kept=1 << 24):
        self._event = JsonEvent()
        self._reader = LIBRARY.wb_json_new(JsonLimits(depth, kept))
        if not self._reader:
            raise MemoryError("memory was refused")

    def push(self, piece):
        """Appends a piece to what waits to be read."""
        piece = bytes(memoryview(piece))
        self._check(LIBRARY.wb_json_push(self._reader, piece, len(piece)))

    def end(self):
        """Notes that no more follows."""
        self._check(LIBRARY.wb_json_end(self._reader))

    def events(self):
        """Yields the events that the pieces so far have, each as its kind and its value."""
        while True:
            status = LIBRARY.wb_json_next(self._reader, self._event)
            if status in (DONE, NEEDS_MORE):
                return
            self._check(status)
            yield KINDS[self._event.kind], self._value()

    @property
    def fed(self):
        """How many bytes were pushed."""
        return LIBRARY.wb_json_fed(self._reader)

    @property
    def held(self):
        """How many bytes of the input are kept."""
        return LIBRARY.wb_json_held(self._reader)

    @property
    def place(self):
        """How many bytes of the input were read."""
        return LIBRARY.wb_json_place(self._reader)

    @property
    def level(self):
        """How many arrays and objects are open."""
        return LIBRARY.wb_json_level(self._reader)

    def close(self):
        """Frees the reader."""
        reader, self._reader = getattr(self, "_reader", None), None
        if reader:
            LIBRARY.wb_json_free(reader)

    __del__ = close

    def __enter__(self):
        return self

    def __exit__(self, *_):
        self.close()

    def _check(self, status):
        if status == REFUSED:
            raise MemoryError("memory was refused")
        if status != OK:
            has_place = status in (DAMAGED, UNEXPECTED, TOO_DEEP, ENDS_EARLY)
            raise ReadError(status, self._event.place if has_place else None, self._event.cause if status == DAMAGED else 0, LIBRARY.wb_json_cause_text)

    def _value(self):
        event = self._event
        kind = KINDS[event.kind]
        if kind == "boolean":
            return event.kind == TRUE
        if kind not in ("key", "string", "number"):
            return None
        if event.kind == NUMBER and event.has_integer:
            return event.integer
        text = ctypes.string_at(event.text, event.length).decode()
        if event.kind != NUMBER:
            return text
        return float(text) if set(text) & set(".eE") else int(text)


def json_events(pieces, depth=512, kept=1 << 24):
    """Yields the events of a JSON text that comes in pieces, each as its kind and its value."""
    if isinstance(pieces, (bytes, bytearray, memoryview)):
        pieces = (pieces,)
    with JsonReader(depth, kept) as reader:
        for piece in pieces:
            reader.push(piece)
            yield from reader.events()
        reader.end()
        yield from reader.events()


class CsvReader:
    """A reader of records of comma-separated values; `kept` bytes may wait to be read when a piece is pushed."""

    def __init__(self, kept=1 << 24):
        self._record = CsvRecord()
        self._reader = LIBRARY.wb_csv_new(CsvLimits(kept))
        if not self._reader:
            raise MemoryError("memory was refused")

    def push(self, piece):
        """Appends a piece to what waits to be read."""
        piece = bytes(memoryview(piece))
        self._check(LIBRARY.wb_csv_push(self._reader, piece, len(piece)))

    def end(self):
        """Notes that no more follows."""
        self._check(LIBRARY.wb_csv_end(self._reader))

    def records(self):
        """Yields the records that the pieces so far have, each as a list of its fields."""
        while True:
            status = LIBRARY.wb_csv_next(self._reader, self._record)
            if status in (DONE, NEEDS_MORE):
                return
            self._check(status)
            ends = self._record.ends[:self._record.count]
            text = ctypes.string_at(self._record.text, ends[-1])
            yield [text[start:end] for start, end in zip([0, *ends], ends)]

    @property
    def fed(self):
        """How many bytes were pushed."""
        return LIBRARY.wb_csv_fed(self._reader)

    @property
    def held(self):
        """How many bytes of the input are kept."""
        return LIBRARY.wb_csv_held(self._reader)

    @property
    def place(self):
        """How many bytes of the input were read."""
        return LIBRARY.wb_csv_place(self._reader)

    def close(self):
        """Frees the reader."""
        reader, self._reader = getattr(self, "_reader", None), None
        if reader:
            LIBRARY.wb_csv_free(reader)

    __del__ = close

    def __enter__(self):
        return self

    def __exit__(self, *_):
        self.close()

    def _check(self, status):
        if status == REFUSED:
            raise MemoryError("memory was refused")
        if status != OK:
            raise ReadError(status, self._record.place if status == DAMAGED else None)


def csv_records(pieces, kept=1 << 24):
    """Yields the records of comma-separated values that come in pieces, each as a list of its fields."""
    if isinstance(pieces, (bytes, bytearray, memoryview)):
        pieces = (pieces,)
    with CsvReader(kept) as reader:
        for piece in pieces:
            reader.push(piece)
            yield from reader.records()
        reader.end()
        yield from reader.records()


class RespReader:
    """A reader of the events of replies of a Redis server, within `depth` arrays and with texts of `longest` bytes; `kept` bytes may wait to be read when a piece is pushed."""

    def __init__(self, depth=32, longest=1 << 29, kept=(1 << 29) + (1 << 24)):
        self._event = RespEvent()
        self._reader = LIBRARY.wb_resp_new(RespLimits(depth, longest, kept))
        if not self._reader:
            raise MemoryError("memory was refused")

    def push(self, piece):
        """Appends a piece to what waits to be read."""
        piece = bytes(memoryview(piece))
        self._check(LIBRARY.wb_resp_push(self._reader, piece, len(piece)))

    def end(self):
        """Notes that no more follows."""
        self._check(LIBRARY.wb_resp_end(self._reader))

    def events(self):
        """Yields the events that the pieces so far have, each as its kind and its value: the count of an array that begins, the bytes of a text, an integer, or None."""
        while True:
            status = LIBRARY.wb_resp_next(self._reader, self._event)
            if status in (DONE, NEEDS_MORE):
                return
            self._check(status)
            yield RESP_KINDS[self._event.kind], self._value()

    @property
    def fed(self):
        """How many bytes were pushed."""
        return LIBRARY.wb_resp_fed(self._reader)

    @property
    def held(self):
        """How many bytes of the input are kept."""
        return LIBRARY.wb_resp_held(self._reader)

    @property
    def place(self):
        """How many bytes of the input were read."""
        return LIBRARY.wb_resp_place(self._reader)

    @property
    def level(self):
        """How many arrays are open."""
        return LIBRARY.wb_resp_level(self._reader)

    def close(self):
        """Frees the reader."""
        reader, self._reader = getattr(self, "_reader", None), None
        if reader:
            LIBRARY.wb_resp_free(reader)

    __del__ = close

    def __enter__(self):
        return self

    def __exit__(self, *_):
        self.close()

    def _check(self, status):
        if status == REFUSED:
            raise MemoryError("memory was refused")
        if status != OK:
            has_place = status in (DAMAGED, TOO_DEEP, ENDS_EARLY)
            raise ReadError(status, self._event.place if has_place else None, self._event.cause if has_place else 0, LIBRARY.wb_resp_cause_text)

    def _value(self):
        kind = RESP_KINDS[self._event.kind]
        if kind == "start_array":
            return self._event.count
        if kind == "integer":
            return self._event.integer
        return ctypes.string_at(self._event.text, self._event.length) if kind in ("simple", "error", "bulk") else None


def resp_events(pieces, depth=32, longest=1 << 29, kept=(1 << 29) + (1 << 24)):
    """Yields the events of replies that come in pieces, each as its kind and its value."""
    if isinstance(pieces, (bytes, bytearray, memoryview)):
        pieces = (pieces,)
    with RespReader(depth, longest, kept) as reader:
        for piece in pieces:
            reader.push(piece)
            yield from reader.events()
        reader.end()
        yield from reader.events()


class WriteError(ValueError):
    """Why nothing was written: `status`."""

    def __init__(self, status):
        self.status = status
        super().__init__(LIBRARY.wb_status_text(status).decode())


class Writer:
    """What the writers of all formats share. Where a call raises an error, what was written is what it was."""

    FORMAT = None

    def __init__(self, *limits):
        self._written = Written()
        self._writer = getattr(LIBRARY, f"wb_{self.FORMAT}_writer_new")(*limits)
        if not self._writer:
            raise MemoryError("memory was refused")

    def take(self):
        """Returns what was written, and drops it."""
        self._call("written", self._written)
        text = ctypes.string_at(self._written.text, self._written.length) if self._written.length else b""
        self._call("forget")
        return text

    def close(self):
        """Frees the writer."""
        writer, self._writer = getattr(self, "_writer", None), None
        if writer:
            getattr(LIBRARY, f"wb_{self.FORMAT}_writer_free")(writer)

    __del__ = close

    def __enter__(self):
        return self

    def __exit__(self, *_):
        self.close()

    def _call(self, name, *arguments):
        status = getattr(LIBRARY, f"wb_{self.FORMAT}_{name}")(self._writer, *arguments)
        if status == REFUSED:
            raise MemoryError("memory was refused")
        if status != OK:
            raise WriteError(status)

    def _text(self, name, text):
        text = bytes(memoryview(text))
        self._call(name, text, len(text))


class JsonWriter(Writer):
    """A generator of a JSON text, of values within `depth` arrays and objects."""

    FORMAT = "json"

    def __init__(self, depth=512):
        super().__init__(depth)

    def write(self, value):
        """Writes None, a boolean, a number, a string, or a list, tuple or dict of such."""
        if value is None:
            self._call("write_null")
        elif isinstance(value, bool):
            self._call("write_bool", value)
        elif isinstance(value, int) and -1 << 63 <= value < 1 << 63:
            self._call("write_integer", value)
        elif isinstance(value, (int, float)):
            self.number(repr(value))
        elif isinstance(value, str):
            self.string(value)
        elif isinstance(value, dict):
            self.start_object()
            for name, member in value.items():
                self.key(name)
                self.write(member)
            self.end_object()
        elif isinstance(value, (list, tuple)):
            self.start_array()
            for element in value:
                self.write(element)
            self.end_array()
        else:
            raise TypeError(f"JSON has no {type(value).__name__}")

    def number(self, text):
        """Writes a number by its text."""
        self._text("write_number", text.encode())

    def string(self, text):
        """Writes a string."""
        self._text("write_string", text.encode("utf-8", "surrogatepass"))

    def key(self, name):
        """Writes the name of a member, whose value comes next."""
        self._text("write_key", name.encode("utf-8", "surrogatepass"))

    def start_array(self):
        """Begins an array."""
        self._call("start_array")

    def end_array(self):
        """Ends the array that began last."""
        self._call("end_array")

    def start_object(self):
        """Begins an object."""
        self._call("start_object")

    def end_object(self):
        """Ends the object that began last."""
        self._call("end_object")

    @property
    def level(self):
        """How many arrays and objects are open."""
        return LIBRARY.wb_json_writer_level(self._writer)

    @property
    def is_whole(self):
        """Whether the value is written, and nothing more may come."""
        return LIBRARY.wb_json_is_whole(self._writer)


class CsvWriter(Writer):
    """A writer of records of comma-separated values."""

    FORMAT = "csv"

    def __init__(self):
        super().__init__()

    def field(self, text):
        """Writes the bytes of a field."""
        self._text("write_field", text)

    def end_record(self):
        """Ends the record, which must have a field."""
        self._call("end_record")

    def record(self, fields):
        """Writes a record of these fields."""
        for field in fields:
            self.field(field)
        self.end_record()

    @property
    def is_whole(self):
        """Whether the last record has ended."""
        return LIBRARY.wb_csv_is_whole(self._writer)


class RespWriter(Writer):
    """A writer of replies of a Redis server, and of commands to one."""

    FORMAT = "resp"

    def __init__(self):
        super().__init__()

    def simple(self, text):
        """Writes a simple string, which has neither CR nor LF."""
        self._text("write_simple", text)

    def error(self, text):
        """Writes an error, which has neither CR nor LF."""
        self._text("write_error", text)

    def integer(self, number):
        """Writes an integer of 64 bits with a sign."""
        if not -1 << 63 <= number < 1 << 63:
            raise OverflowError(number)
        self._call("write_integer", number)

    def bulk(self, text):
        """Writes a bulk string."""
        self._text("write_bulk", text)

    def null_bulk(self):
        """Writes the null that stands for a bulk string."""
        self._call("write_null_bulk")

    def array(self, count):
        """Begins an array of this number of replies, which are written next."""
        self._call("write_array", count)

    def null_array(self):
        """Writes the null that stands for an array."""
        self._call("write_null_array")

    def command(self, words):
        """Writes a command of these words."""
        words = [bytes(memoryview(word)) for word in words]
        lengths = (ctypes.c_size_t * len(words))(*map(len, words))
        self._call("write_command", len(words), (ctypes.c_char_p * len(words))(*words), lengths)
