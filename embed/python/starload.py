"""starload inside Python: runs Starlark files and answers what each of them defines. docs/EMBEDDING.md

    import starload
    report = starload.load({"//:a.star": "x = [1, 2]"}, ["//:a.star"], values=True)
    report["//:a.star"].values["x"]     # [1, 2]

The shared object is embed/out/libstarload.so, or the one that STARLOAD_LIBRARY names. Calls in different threads run at the same time: ctypes lets go
of the interpreter's lock.
"""
import ctypes
import json
import os
import threading

__all__ = ["load", "load_bundle", "Report", "Module", "Error", "Refused", "BadBundle", "BadRoot", "BadPrelude", "OutOfMemory"]

OK, FAULTY, REFUSED, ROOM = 0, 1, 2, 3


class Error(Exception):
    """What this module raises."""


class Refused(Error):
    """There is no report. `code` is the number of the refusal in starload.h."""

    def __init__(self, code, text):
        super().__init__(text)
        self.code = code

    def __reduce__(self):
        return type(self), (self.code, str(self))


class BadBundle(Refused):
    """The files are no bundle: a label is not in normal form, or there are too many files or bytes."""


class BadRoot(Refused):
    """A root is no label, or the label of no file."""


class BadPrelude(Refused):
    """The prelude is no label, or the label of no file."""


class OutOfMemory(Refused, MemoryError):
    """An allocation failed."""


_REFUSALS = {
    2: (BadBundle, "bundle too big"),
    3: (BadBundle, "not a JSON object of texts"),
    4: (BadBundle, "bad label in the bundle"),
    5: (BadBundle, "too many files"),
    6: (BadBundle, "file too long"),
    7: (BadRoot, "bad root"),
    8: (BadRoot, "no such root"),
    9: (BadPrelude, "bad prelude"),
    10: (BadPrelude, "no such prelude"),
    11: (OutOfMemory, "out of memory"),
    13: (Refused, "module not published"),
    17: (Refused, "steps are not from 1 to 100000000"),
    18: (Refused, "no roots, or a word that is not UTF-8"),
}


class Module:
    """A module of a report. `status` is ok, static, load or fault."""

    def __init__(self, data):
        self.data = data
        self.label = data["label"]
        self.status = data["status"]
        self.lines = data["lines"]
        self.globals = data.get("globals", {})
        self.values = data.get("values", {})
        self.opaque = data.get("opaque", [])
        self.loads = data.get("loads", [])
        self.paid = data.get("steps")
        self.fault = data.get("fault")
        self.line = data.get("line")
        self.cause = data.get("cause")
        self.cycle = data.get("cycle")

    @property
    def ok(self):
        return self.status == "ok"

    def __repr__(self):
        return f"<Module {self.label}: {self.status}>"


class Report:
    """A report: `text` has its bytes, `ok` says whether every file is ok, `report[LABEL]` is a module."""

    def __init__(self, text, ok):
        self.text = text
        self.ok = ok
        self.data = json.loads(text)
        self.begun = self.data["begun"]
        self.modules = [Module(it) for it in self.data["modules"]]
        self._by_label = {it.label: it for it in self.modules}

    def __getitem__(self, label):
        return self._by_label[label]

    def __contains__(self, label):
        return label in self._by_label

    def __iter__(self):
        return iter(self.modules)

    def __len__(self):
        return len(self.modules)


class _Bytes(ctypes.Structure):
    _fields_ = [("at", ctypes.c_char_p), ("length", ctypes.c_size_t)]


class _Words(ctypes.Structure):
    _fields_ = [("at", ctypes.POINTER(_Bytes)), ("length", ctypes.c_size_t)]


class _Asked(ctypes.Structure):
    _fields_ = [
        ("bundle", _Bytes),
        ("roots", _Words),
        ("prelude", _Bytes),
        ("steps", ctypes.c_uint32),
        ("has_prelude", ctypes.c_bool),
        ("with_values", ctypes.c_bool),
        ("with_loads", ctypes.c_bool),
        ("with_steps", ctypes.c_bool),
        ("only_roots", ctypes.c_bool),
    ]


class _Answer(ctypes.Structure):
    _fields_ = [("status", ctypes.c_uint32), ("refusal", ctypes.c_uint32), ("length", ctypes.c_size_t)]


def _library():
    beside = os.path.join(os.path.dirname(os.path.dirname(os.path.abspath(__file__))), "out", "libstarload.so")
    library = ctypes.CDLL(os.environ.get("STARLOAD_LIBRARY", beside))
    library.starload_run.argtypes = [ctypes.POINTER(_Asked), ctypes.c_char_p, ctypes.c_size_t]
    library.starload_run.restype = _Answer
    return library


_run = _library().starload_run
_room = threading.local()
_KEPT = 1 << 16


def _buffer(size):
    """A buffer that nobody else has: for little room that of this thread, which a call takes and gives back."""
    kept = _room.__dict__.pop("buffer", None) if size <= _KEPT else None
    return kept or ctypes.create_string_buffer(max(size, _KEPT))


def _give_back(buffer):
    if len(buffer) == _KEPT:
        _room.buffer = buffer


def _bytes(it):
    return _Bytes(it, len(it))


def _answer(bundle, roots, prelude, steps, flags):
    """The bytes of the report, and whether every file is ok."""
    words = [it.encode("utf-8", "surrogatepass") for it in roots]
    row = (_Bytes * max(len(words), 1))(*map(_bytes, words))
    label = (prelude or "").encode("utf-8", "surrogatepass")
    if not 1 <= steps <= 100_000_000:
        steps = 0
    asked = _Asked(_bytes(bundle), _Words(row, len(words)), _bytes(label), steps, prelude is not None, *flags)
    size = 4096 + 4 * len(bundle)  # mostly enough: a second call does all the work again
    while True:
        out = _buffer(size)
        answer = _run(ctypes.byref(asked), out, len(out))
        if answer.status == REFUSED:
            kind, text = _REFUSALS.get(answer.refusal, (Refused, "no report"))
            raise kind(answer.refusal, text)
        if answer.status != ROOM:
            text = ctypes.string_at(out, answer.length)
            _give_back(out)
            return text, answer.status == OK
        size = answer.length


def load_bundle(bundle, roots, prelude=None, steps=1_000_000, values=False, loads=False, paid=False, only_roots=False):
    """As `load`, where the files are the bytes of a bundle."""
    return Report(*_answer(bytes(bundle), list(roots), prelude, steps, (values, loads, paid, only_roots)))


def load(files, roots, prelude=None, steps=1_000_000, values=False, loads=False, paid=False, only_roots=False):
    """Runs the roots and all that they load, and answers their report.

    files       the files: a mapping from labels, as "//pkg:name.star", to texts
    roots       the labels of the files to run
    prelude     the label of the file whose names every other file sees
    steps       how many steps each file may take, 1 to 100,000,000
    values      whether each module has the values of its globals as JSON, too; loads, paid: its loads, the steps that it has paid
    only_roots  whether of the modules that are ok the roots alone are reported

    Files at fault are no exception: see `Report.ok`. Refused, or one of its kinds, where there is no report.
    """
    bundle = json.dumps(dict(files), ensure_ascii=False).encode("utf-8", "surrogatepass")
    return load_bundle(bundle, roots, prelude, steps, values, loads, paid, only_roots)
