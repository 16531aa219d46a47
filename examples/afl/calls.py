#!/usr/bin/env python3
"""Makes the calls of a custom mutator that AFL++ makes, without AFL++.

    calls.py MUTATOR FOLDER MODULE..

Each module is mutated, alone and with code of the one before it, changed as in the havoc stage, and trimmed, once with every step
accepted and once with every second one. What was made goes to FOLDER, so that it can be validated. Ends with status 1 and a line
where a call does something else than AFL++ is told.
"""

import ctypes
import os
import sys
from pathlib import Path

MOST = 1 << 16
NO_MODULE = b"# A text, and no module"

Bytes = ctypes.POINTER(ctypes.c_ubyte)


class Mutator:
    """The calls of the shared object, as AFL++ declares them."""

    TYPES = {
        "init": (ctypes.c_void_p, [ctypes.c_void_p, ctypes.c_uint]),
        "deinit": (None, [ctypes.c_void_p]),
        "fuzz_count": (ctypes.c_uint, [ctypes.c_void_p, ctypes.c_char_p, ctypes.c_size_t]),
        "fuzz": (
            ctypes.c_size_t,
            [
                ctypes.c_void_p,
                ctypes.c_char_p,
                ctypes.c_size_t,
                ctypes.POINTER(Bytes),
                ctypes.c_char_p,
                ctypes.c_size_t,
                ctypes.c_size_t,
            ],
        ),
        "havoc_mutation": (
            ctypes.c_size_t,
            [ctypes.c_void_p, ctypes.c_char_p, ctypes.c_size_t, ctypes.POINTER(Bytes), ctypes.c_size_t],
        ),
        "havoc_mutation_probability": (ctypes.c_ubyte, [ctypes.c_void_p]),
        "init_trim": (ctypes.c_int, [ctypes.c_void_p, ctypes.c_char_p, ctypes.c_size_t]),
        "trim": (ctypes.c_size_t, [ctypes.c_void_p, ctypes.POINTER(Bytes)]),
        "post_trim": (ctypes.c_int, [ctypes.c_void_p, ctypes.c_ubyte]),
        "post_process": (
            ctypes.c_size_t,
            [ctypes.c_void_p, ctypes.c_char_p, ctypes.c_size_t, ctypes.POINTER(Bytes)],
        ),
        "describe": (ctypes.c_char_p, [ctypes.c_void_p, ctypes.c_size_t]),
    }

    def __init__(self, path: str) -> None:
        library = ctypes.CDLL(os.path.abspath(path))
        self.calls = {}
        for name, (result, arguments) in self.TYPES.items():
            call = getattr(library, f"afl_custom_{name}")
            call.restype, call.argtypes = result, arguments
            self.calls[name] = call
        self.state = self.calls["init"](None, 7)

    def call(self, name: str, *arguments):
        return self.calls[name](self.state, *arguments)

    def made(self, name: str, *arguments, behind=()) -> bytes:
        """The bytes that a call has made, whose size it answers."""
        out = Bytes()
        size = self.call(name, *arguments, ctypes.byref(out), *behind)
        if not out:
            fail(f"{name} gives no bytes")
        return bytes(out[:size])


def fail(text: str) -> None:
    print(text)
    sys.exit(1)


def fuzzed(mutator: Mutator, module: bytes, other: bytes) -> list[bytes]:
    """Modules that the mutator makes, with their descriptions looked at."""
    if mutator.call("fuzz_count", NO_MODULE, len(NO_MODULE)) != 0:
        fail("a text is mutated")
    if mutator.call("fuzz_count", module, len(module)) == 0:
        fail("a module isn't mutated")
    modules = []
    for _ in range(20):
        made = mutator.made("fuzz", module, len(module), behind=(other, len(other), MOST))
        if made:
            modules.append(made)
            described = mutator.call("describe", 100)
            if not described.startswith(b"op:teddertempo,"):
                fail(f"what was made is described as {described!r}")
    return modules


def stacked(mutator: Mutator, module: bytes) -> bytes:
    """The module with twenty mutations of the havoc stage."""
    if not 0 < mutator.call("havoc_mutation_probability") <= 100:
        fail("the mutator takes no part in the havoc stage")
    for _ in range(20):
        module = mutator.made("havoc_mutation", module, len(module), behind=(MOST,))
    return module


def trimmed(mutator: Mutator, module: bytes, every: int) -> bytes:
    """The module trimmed, where every so many steps one is accepted."""
    steps = mutator.call("init_trim", module, len(module))
    step = 0
    while step < steps:
        made = mutator.made("trim")
        if len(made) > len(module):
            fail("a trimmed module is larger")
        accepted = step % every == 0
        if accepted:
            module = made
        step = mutator.call("post_trim", accepted)
    return module


def dropped(path: str, module: bytes) -> None:
    """What is no module is dropped where that is asked for alone."""
    for asked, is_kept in [("0", True), ("1", False)]:
        os.environ["TEDDERTEMPO_MODULES_ONLY"] = asked
        mutator = Mutator(path)
        if mutator.made("post_process", module, len(module)) != module:
            fail("a module is dropped")
        if (mutator.made("post_process", NO_MODULE, len(NO_MODULE)) != b"") != is_kept:
            fail(f"a text is wrongly kept or dropped, with TEDDERTEMPO_MODULES_ONLY={asked}")
        mutator.call("deinit")


def main() -> None:
    path, folder, *names = sys.argv[1:]
    mutator = Mutator(path)
    other = b""
    count = smaller = 0
    for name in names:
        module = Path(name).read_bytes()
        small = trimmed(mutator, module, 1)
        smaller += len(small) < len(module)
        modules = [*fuzzed(mutator, module, other), stacked(mutator, module), small, trimmed(mutator, module, 2)]
        for number, made in enumerate(modules):
            Path(folder, f"{Path(name).stem}_{number}.wasm").write_bytes(made)
        if all(made == module for made in modules):
            fail(f"nothing is made of {name}")
        count += len(modules)
        other = module
    mutator.call("deinit")
    if smaller == 0:
        fail("no module is trimmed")
    dropped(path, other)
    print(f"{count} modules made of {len(names)}")


main()
