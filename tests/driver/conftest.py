"""Fixtures of the tests of the driver and the reducer. TEDDERTEMPO names the program, else it is that of crates/teddertempo/out."""

from __future__ import annotations

import os
import shutil
import sys
from pathlib import Path

import pytest

TOP = Path(__file__).resolve().parents[2]
sys.path.insert(0, str(TOP / "driver"))
sys.dont_write_bytecode = True

from sources import ALL, SMALL  # noqa: E402
from support import ENGINE, TOOLS, Driver, Reducer, globals_in, sleep_of_test  # noqa: E402

NEEDED = ("wasm-validate", "wasm-objdump", "wasm2wat", "wat2wasm")


def pytest_collection_modifyitems(items: list[pytest.Item]) -> None:
    """Puts tests that run no tool first."""
    items.sort(key=lambda item: bool({"driver", "reducer"} & {*getattr(item, "fixturenames", ())}))


@pytest.fixture(scope="session")
def program() -> Path:
    found = Path(os.environ.get("TEDDERTEMPO", TOP / "crates/teddertempo/out/teddertempo")).resolve()
    if not found.exists():
        pytest.fail(f"no program {found}: TEDDERTEMPO names one")
    return found


@pytest.fixture
def folder(tmp_path: Path) -> Path:
    """A folder of the test's own, with a space in its name."""
    made = tmp_path / "a folder"
    made.mkdir()
    return made


@pytest.fixture
def driver(program: Path, folder: Path, request: pytest.FixtureRequest) -> Driver:
    module, engine = folder / "a module.wasm", folder / "engine.py"
    shutil.copyfile(TOP / "tests/modules/numbers.wasm", module)
    engine.write_text(ENGINE.format(tools=str(TOOLS), first=globals_in(module), sleep=sleep_of_test(request.node.name)))
    return Driver(program, folder, module, engine)


@pytest.fixture
def reducer(folder: Path) -> Reducer:
    missing = [tool for tool in NEEDED if not shutil.which(tool)]
    if missing:
        pytest.fail(f"no {', '.join(missing)} on the path (package wabt)")
    return Reducer(folder)


@pytest.fixture
def all_sections(reducer: Reducer) -> Path:
    """A module with something in each section."""
    return reducer.compiled("all", ALL)


@pytest.fixture
def small(reducer: Reducer) -> Path:
    """A module whose one function has a part that each predicate of the tests looks for."""
    return reducer.compiled("small", SMALL)
