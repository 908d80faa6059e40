"""The shell: reads lines, has the store do them, and says what each answer means."""
import json
from typing import Dict, List, Optional, Union

from explaining.refusals import Meaning
from explaining.steps import say_cluster
from reading.lines import Cluster
from reading.scripts import Script, read_script
from reading.texts import text_of

from .consoles import Interrupted, Lines, Terminal
from .helps import help_of
from .stores import Store, StoreEnded
from .tellers import Teller
from .words import Asked, BadWords, Known, read_words

ENDED = "The store has ended. Type new to start another one of the same script, or quit."


class Shell:
    """A shell over a store of a script; `is_json` has it print what it sends."""

    def __init__(self, program: str, path: str, meanings: Dict[str, Meaning],
                 is_json: bool) -> None:
        self.program, self.path, self.meanings, self.is_json = program, path, meanings, is_json
        self.keys: Dict[str, None] = {}
        self.store: Optional[Store] = None
        self.script: Optional[Script] = None
        self.teller: Optional[Teller] = None

    def start(self) -> None:
        """Starts a store, and prints what the script's own commands do."""
        with open(self.path, "rb") as file:
            self.script = read_script(file.read())
        self.store = Store(self.program, self.path)
        self.teller = Teller(self.script, self.meanings)
        for command in self.script.commands:
            self.note(text_of(command.key) if command else None)
        for line in self.store.first(len(self.script.commands)):
            self.show(line)

    def greet(self) -> None:
        """Says at a terminal what the store is."""
        nodes = f"The store has the nodes 0 to {self.script.nodes - 1}."
        self.put_out(f"{nodes} {say_cluster(Cluster(*self.script[:3]))}")
        self.put_out("Type help for the commands.")

    def put_out(self, line: str) -> None:
        print(line, flush=True)

    def show(self, line: str) -> None:
        """Prints a line of the store, and what it means."""
        self.put_out(line)
        self.say(self.teller.tell(line))

    def say(self, sentences: List[str]) -> None:
        for sentence in sentences:
            self.put_out(f"   {sentence}")

    def run(self, console: Union[Terminal, Lines]) -> int:
        """Does each line, and ends with the audit, unless it is left before. Returns the status."""
        while True:
            try:
                line = console.read()
                if line is None:
                    return self.end()
                if not self.do(line):
                    return 0
            except Interrupted:
                continue
            except BadWords as error:
                self.put_out(f"{error}.")
            except StoreEnded as error:
                return self.lose(error)

    def do(self, line: str) -> bool:
        """Does a line, and tells whether the shell goes on."""
        known = Known(self.script.nodes, self.teller.contexts)
        asked = read_words(line, known)
        if asked is None:
            return True
        if asked.word == "quit":
            self.quit()
            return False
        if asked.word == "help":
            for text in help_of(asked.topic):
                self.put_out(text)
        elif asked.word == "new":
            self.start_anew()
        elif self.store is None:
            self.put_out(ENDED)
        elif asked.word == "audit":
            self.end()
            self.put_out(ENDED)
        else:
            self.ask(asked)
        return True

    def ask(self, asked: Asked) -> None:
        """Has the store do a command, and prints its answer."""
        self.note(asked.members.get("key"))
        line = json.dumps(asked.members, ensure_ascii=False)
        if self.is_json:
            self.put_out(line)
        self.teller.ask(asked.members)
        for answer in self.store.ask(line):
            self.show(answer)

    def note(self, key: Optional[str]) -> None:
        """Notes a key, for completion, where there is one that can be typed."""
        if key:
            self.keys.setdefault(key)

    def start_anew(self) -> None:
        if self.store is not None:
            raise BadWords("the store has not ended; audit ends it")
        self.start()
        self.put_out("A new store has started.")

    def end(self) -> int:
        """Ends the store, where there is one, and prints its audit."""
        if self.store is not None:
            store, self.store = self.store, None
            for line in store.end():
                self.show(line)
            self.say(self.teller.end_audit())
        return 0

    def quit(self) -> None:
        if self.store is not None:
            self.store.leave()

    def lose(self, error: StoreEnded) -> int:
        """Says that the store has ended by itself, and returns the status."""
        self.put_out(f"{error.said.rstrip()}\nThe program has ended with status {error.status}.")
        return 1
