"""The proved libraries for windows and for hosts, called from Python as their headers declare them.

    library = built()
    budget = library.make("budget")
    library.call("begin", budget, 10, 50, 0, 0)
    budget.percent == 10

Names are those of the header, without what they all begin with. Structs and functions are read off the header, so a new one needs no line
here. Which member a struct has at which place is what `checks/structs.py` compares with the library's. `built_host` is the library for
hosts: its handle is the struct `host`, and a list of pages is passed as an array of bytes. `built_process` has the calls of the library for windows
over all windows of a process: its handle is the struct `process`, and the structs of windows have their whole names.
"""
from __future__ import annotations

import ctypes
import functools
import pathlib
import re
from collections.abc import Iterable
from typing import Any, Optional

from common.c_programs import CC, WINDOW_LIBRARY, run
from harness import OUT, TOP, LeftOut, needs

HOST_LIBRARY = "libpageshare_host.a"
# What a type of the header is for Python.
TYPES: dict[str, Any] = {
    "bool": ctypes.c_bool, "uint8_t": ctypes.c_uint8, "uint16_t": ctypes.c_uint16, "uint32_t": ctypes.c_uint32,
    "uint64_t": ctypes.c_uint64, "size_t": ctypes.c_size_t, "void": None,
}
COMMENT = re.compile(r"/\*.*?\*/", re.S)
MEMBER = re.compile(r"^\s*(?:const )?(struct )?(\w+) (\*?)([\w, ]+)(?:\[(\w+)\])?;", re.M)
PARAMETER = re.compile(r"(?:const )?(struct )?(\w+) (\*?)(\w+)")
# A parameter that is an array, or a pointer to arrays: its address is passed.
ARRAY = re.compile(r"(?:\(\*(\w+)\)|(\w+))\[\w+\]")


def linked(path: pathlib.Path, archive: str) -> pathlib.Path:
    """Links a proved static library to a shared object, which is left at this path."""
    path.parent.mkdir(parents=True, exist_ok=True)
    words = [CC, "-shared", "-o", str(path), "-Wl,--whole-archive", archive, "-Wl,--no-whole-archive"]
    if run(words).returncode != 0:
        raise SystemExit(f"{archive} can't be linked")
    return path


class Library:
    """The structs, the constants and the functions of a library, whose names in its header all begin with `prefix`. It may use structs of another one."""

    def __init__(self, path: pathlib.Path, header: pathlib.Path, prefix: str, of: Optional[Library] = None) -> None:
        text = COMMENT.sub("", header.read_text(encoding="utf-8"))
        self.prefix, self.handle = f"{prefix}_", prefix.rpartition("_")[2]
        numbers = re.findall(rf"^\s*(?:#define |enum \{{ )?{prefix.upper()}_(\w+)(?: =)?\s+(0x[0-9a-f]+|\d+)", text, re.M)
        self.constants: dict[str, int] = {} if of is None else {**of.constants}
        self.constants.update((name, int(number, 0)) for name, number in numbers)
        self.structs: dict[str, Any] = {} if of is None else {of.prefix + name: it for name, it in of.structs.items()}
        for name, inside in re.findall(rf"^struct {prefix}(?:_(\w+))? \{{(.*?)^\}};", text, re.M | re.S):
            members = [
                (member, self.member(kind, star, size)) for _, kind, star, names, size in MEMBER.findall(inside) for member in names.split(", ")
            ]
            self.structs[name or self.handle] = type(name or self.handle, (ctypes.Structure,), {"_fields_": members})
        loaded = ctypes.CDLL(str(path))
        self.called: set[str] = set()
        functions = re.findall(rf"^(?:struct )?(\w+) {prefix}_(\w+)\(([^;{{]*)\);", text, re.M)
        self.functions = {name: self.function(loaded, name, kind, ARRAY.sub(r"*\1\2", words)) for kind, name, words in functions}

    def type_of(self, kind: str) -> Any:
        name = self.handle if f"{kind}_" == self.prefix else kind.removeprefix(self.prefix)
        return TYPES[kind] if kind in TYPES else self.structs[name]

    def member(self, kind: str, star: str, size: str) -> Any:
        """The type of a member. A size is a number or a constant."""
        if star:
            return ctypes.c_void_p
        many = self.constants[size.removeprefix(self.prefix.upper())] if size and not size.isdigit() else int(size or 0)
        return self.type_of(kind) * many if size else self.type_of(kind)

    def function(self, loaded: ctypes.CDLL, name: str, kind: str, words: str) -> Any:
        """A function, which takes what the header says."""
        made: Any = getattr(loaded, self.prefix + name)
        given = [self.type_of(kind) for _, kind, _, _ in PARAMETER.findall(words)]
        stars = [star for _, _, star, _ in PARAMETER.findall(words)]
        made.argtypes = [ctypes.POINTER(kind) if star else kind for kind, star in zip(given, stars)]
        made.restype = self.type_of(kind)
        return made

    def call(self, name: str, *words: Any) -> Any:
        """Calls a function. A struct, a number or an array is passed by its address where the header has a pointer."""
        self.called.add(name)
        return self.functions[name](*words)

    def make(self, kind: str, /, **members: Any) -> Any:
        """A struct, or a number of a type, of which all is zeros but these members."""
        return (TYPES[kind] if kind in TYPES else self.structs[kind])(**members)

    def array(self, kind: str, values: Iterable[Any]) -> Any:
        """An array of structs or of numbers. It has a place where there are no values, too, so that it has an address."""
        given = list(values)
        of = TYPES[kind] if kind in TYPES else self.structs[kind]
        return (of * max(1, len(given)))(*given)

    def over(self, kind: str, /, **members: Any) -> Any:
        """A struct in which arrays are pointers, each with a number of members: an array, or one with how many of it count. What isn't given has none."""
        fields = [name for name, _ in self.structs[kind]._fields_]
        arrays = {name: members.pop(name, (ctypes.c_uint64(), 0)) for name in fields if f"{name}_count" in fields}
        made = self.structs[kind](**members)
        made.kept = [*arrays.values()]
        for name, given in arrays.items():
            array, count = given if isinstance(given, tuple) else (given, len(given))
            setattr(made, name, ctypes.addressof(array))
            setattr(made, f"{name}_count", count)
        return made


def values_of(value: Any) -> Any:
    """What a struct, an array or a number contains, as tuples and numbers of Python."""
    if isinstance(value, ctypes.Structure):
        return tuple(values_of(getattr(value, field[0])) for field in value._fields_)
    if isinstance(value, ctypes.Array):
        return tuple(map(values_of, value))
    return getattr(value, "value", value)


def built() -> Library:
    """The library for windows as it was built and proved."""
    needs("what the library for windows decides", CC, "ar", "make")
    if (OUT / "proved_window.a").exists() and run(["make", "--no-print-directory", "-C", TOP, "out/libpageshare_window.a"]).returncode != 0:
        raise SystemExit("out/libpageshare_window.a can't be made")
    if not pathlib.Path(WINDOW_LIBRARY).exists():
        raise LeftOut(f"what the library for windows decides, since there is no {WINDOW_LIBRARY} (tools/build.py --libraries)")
    made = linked(OUT / "rows/libpageshare_window.so", WINDOW_LIBRARY)
    return Library(made, TOP / "window/pageshare_window.h", "pageshare_window")


@functools.lru_cache(maxsize=None)
def built_process() -> Library:
    """The calls of the library for windows over all windows of a process."""
    windows = built()
    return Library(OUT / "rows/libpageshare_window.so", TOP / "window/pageshare_process.h", "pageshare_process", windows)


@functools.lru_cache(maxsize=None)
def built_host() -> Library:
    """The library for hosts as it was built and proved."""
    needs("what the library for hosts decides", CC, "ar", "make")
    if not (OUT / "proved_host.a").exists():
        raise LeftOut("what the library for hosts decides, since there is no out/proved_host.a (tools/build.py --libraries)")
    if run(["make", "--no-print-directory", "-C", TOP, f"out/{HOST_LIBRARY}"]).returncode != 0:
        raise SystemExit(f"out/{HOST_LIBRARY} can't be made")
    made = linked(OUT / "rows/libpageshare_host.so", str(OUT / HOST_LIBRARY))
    return Library(made, TOP / "lib/include/pageshare_host.h", "pageshare_host")
