"""The languages whose kits have the same tests: how their test programs are built and started, and the lines that they must not send."""
from __future__ import annotations

from dataclasses import dataclass
from typing import List, Sequence

# The wrong lines by their names in the test programs, with the kind of the error.
WRONG = {
    "control": "value", "unicode": "value", "upper-name": "value", "blank-name": "value", "empty-name": "value", "newline-name": "value",
    "real": "value", "above": "value", "below": "value", "deep": "deep", "cycle": "deep", "long": "large", "large": "large",
    "connect-upper": "value", "connect-term": "value", "none": "value", "no-term": "value", "no-part": "value",
}


@dataclass(frozen=True)
class Language:
    """A language. In a command, {kits} is the folder of the kits, and {built} the folder of the built programs."""

    name: str
    programs: Sequence[str]
    table_command: str
    echo_command: str
    plus_command: str
    build: Sequence[str] = ()
    impossible: Sequence[str] = ()

    @staticmethod
    def words(command: str, kits: str, built: str) -> List[str]:
        return [word.format(kits=kits, built=built) for word in command.split()]

    def plus(self, kits: str, built: str) -> List[str]:
        return self.words(self.plus_command, kits, built)

    def table(self, kits: str, built: str) -> List[str]:
        return self.words(self.table_command, kits, built)

    def echo(self, kits: str, built: str) -> List[str]:
        return self.words(self.echo_command, kits, built)


def script(name: str, program: str, suffix: str, impossible: Sequence[str] = ()) -> Language:
    """A language whose programs are started without being built."""
    table, echo = (f"{program} {{kits}}/tests/{test}.{suffix}" for test in ("table", "echo"))
    return Language(name, [program], table, echo, f"{program} {{kits}}/{name.lower()}/plus.{suffix}", (), impossible)


GO = "GOCACHE=$PWD/cache GOFLAGS=-mod=mod"

LANGUAGES = [
    script("JavaScript", "node", "mjs"),
    script("Perl", "perl", "pl"),
    script("Lua", "lua5.4", "lua"),
    script("Ruby", "ruby", "rb"),
    Language(
        "Go", ["go"], "{built}/bin/table", "{built}/bin/echo", "{built}/bin/plus",
        ["cp -r $KITS/go/. $KITS/tests/go/. .", "! gofmt -l . | grep .", f"{GO} go vet ./...", f"{GO} go build -o bin/ . ./echo ./table"],
        ["real", "above", "below"],
    ),
    Language(
        "Rust", ["rustc"], "{built}/table", "{built}/echo", "{built}/plus",
        ["cp $KITS/rust/*.rs $KITS/tests/rust/*.rs .",
         *(f"rustc --edition 2021 -D warnings -C overflow-checks=yes -O {name}.rs" for name in ("table", "echo", "plus"))],
        ["unicode", "real", "above", "below", "cycle", "no-term", "no-part"],
    ),
    Language(
        "Java", ["java", "javac"], "java -cp {built} Table", "java -cp {built} Echo", "java -cp {built} Plus",
        ["javac -Xlint:all -Werror -d . $KITS/java/toolbus/ToolBus.java $KITS/java/Plus.java $KITS/tests/java/*.java"],
        ["real", "above", "below"],
    ),
]

# A script that starts a tool, and its steps.
BUS = """tool plus is {{ command = "{}" }}
process Ask is
  let P : plus, V : int in
    execute(plus, P?) . snd-eval(P, plus(1, 2)) . rec-value(P, V?) . snd-terminate(P, done) . shutdown(V)
  endlet
toolbus(Ask)
"""
BUS_STEPS = ["execute 1.1 plus(1)", "snd-eval 1.2 plus(1),plus(1,2)", "rec-value 1.3 plus(1),3", "snd-terminate 1.4 plus(1),done", "shutdown 1.5 3"]
