"""The folder of a finding: the modules before and after the rewrite, what the engine wrote for both, and how to see it again."""

from __future__ import annotations

import os
import shlex
import shutil
from dataclasses import dataclass
from pathlib import Path

from ..engines.engine import Engine, Plan
from ..running.mutator import Mutator, Rewrite
from .store import Finding, Store


@dataclass(frozen=True)
class Account:
    """All that is kept of a finding. `folder` has the modules; `texts` are those of the files beside them, without README.txt."""

    engine: Engine
    plan: Plan
    rewrite: Rewrite
    version: str
    words: list[str]
    folder: Path
    texts: dict[str, str]

    def keep(self, finding: Finding, store: Store) -> Path:
        """Writes the files, and returns the folder that has them in the store."""
        final = store.folder / finding.name()
        mutate = shlex.join(Mutator.command(self.words, finding.seed, finding.count, str(final / "original.wasm"), "bad.wasm"))
        run = [shlex.join(command) for module in ("good.wasm", "bad.wasm")
               for command in self.engine.lay_out(self.folder, final, module, self.plan)]
        texts = {**self.texts, "rewrite.txt": self.rewrite.text, "README.txt": self.readme(finding, [mutate, *run])}
        for name, text in texts.items():
            (self.folder / name).write_text(text, encoding="utf-8", errors="backslashreplace")
        report: dict[str, object] = {"version": self.version, "folder": os.getcwd(), "mutate": mutate, "run": run,
                                     "shown": self.rewrite.text}
        return store.add(finding, report, self.folder)

    def readme(self, finding: Finding, commands: list[str]) -> str:
        """The text for people."""
        made = f"good.wasm has {finding.count - 1} rewrites, bad.wasm one more" if finding.count > 1 else "bad.wasm has this one alone"
        lines = [
            f"{finding.module}, seed {finding.seed}: rewrite {finding.count} changes the engine's answer ({finding.kind}).",
            "",
            f"before  {finding.before}",
            f"after   {finding.after}",
            "",
            f"The rewrite, by the rule {finding.rule}, which keeps the module's behaviour:",
            "",
            *(f"    {line}" for line in self.rewrite.text.rstrip("\n").split("\n")),
            "",
            f"{made}. These commands make bad.wasm again, by {self.version}, and run the engine, in {os.getcwd()}:",
            "",
            *(f"    {command}" for command in commands),
            "",
            "original.txt, good.txt and bad.txt are what the engine wrote.",
        ]
        return "\n".join(lines) + "\n"


def modules_of(folder: Path, mutator: Mutator, seed: int, count: int) -> Path:
    """A folder with the original, the last good mutant and the bad one; `folder` has the first and the last."""
    made = folder / "finding"
    made.mkdir()
    shutil.copyfile(folder / "original.wasm", made / "original.wasm")
    shutil.copyfile(folder / "original.wasm", made / "good.wasm")
    if count > 1:
        mutator.rewrite(made / "original.wasm", seed, count - 1, made / "good.wasm")
    shutil.copyfile(folder / "bad.wasm", made / "bad.wasm")
    return made
