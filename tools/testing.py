"""What the tests of the tools share: counts of checks, tools as modules, scenes, seeded scripts."""
import importlib.machinery
import importlib.util
from pathlib import Path
from types import ModuleType
from typing import List, NamedTuple

TOP = Path(__file__).resolve().parent.parent
COMMANDS = 60


class Counts:
    """How many checks passed, and how many failed."""

    def __init__(self) -> None:
        self.passed = self.failed = 0

    def note(self, is_well: bool, said: str) -> None:
        """Counts a check, and prints what is said of it where it failed."""
        self.passed += bool(is_well)
        self.failed += not is_well
        if not is_well:
            print(said)

    def check(self, name: str, told: object, wanted: object) -> None:
        """Counts a check of what is told, which must be what is wanted."""
        self.note(told == wanted, f"{name}:\n  told   {told!r}\n  wanted {wanted!r}")

    def end(self) -> int:
        """Prints the last line of a test, and returns its status."""
        print(f"{self.passed} passed, {self.failed} failed")
        return 1 if self.failed else 0


def module_of(name: str) -> ModuleType:
    """Returns the program in this file of the repository as a module."""
    loader = importlib.machinery.SourceFileLoader(Path(name).stem, str(TOP / name))
    module = importlib.util.module_from_spec(importlib.util.spec_from_loader(loader.name, loader))
    loader.exec_module(module)
    return module


class Scene(NamedTuple):
    """A scene of examples/: what `dynamo` does with its script, and how that ends."""

    word: str
    status: int
    name: str
    error: str

    @property
    def script(self) -> Path:
        """The file of its script."""
        return TOP / f"examples/scripts/{self.name}.json"

    @property
    def output(self) -> str:
        """What is printed of it."""
        return self.script.with_name(f"{self.name}.json.stdout").read_text(encoding="utf-8")


def scenes() -> List[Scene]:
    """Returns the scenes; each is a run that ends well, but for those of examples/scenes.txt."""
    rows = (TOP / "examples/scenes.txt").read_text(encoding="utf-8").splitlines()
    others = (row.split(" ", 3) for row in rows)
    found = {path.stem: Scene("run", 0, path.stem, "")
             for path in sorted((TOP / "examples/scripts").glob("*.json"))}
    found.update((name, Scene(word, int(status), name, "".join(error)))
                 for name, word, status, *error in others)
    return list(found.values())


def runs() -> List[Scene]:
    """Returns the scenes that are runs and end well."""
    return [scene for scene in scenes() if (scene.word, scene.status) == ("run", 0)]


def seeded(seed: int) -> str:
    """Returns the script of a seed, of so many commands as all tests have."""
    return module_of("tools/scripts").text_of(seed, COMMANDS)
