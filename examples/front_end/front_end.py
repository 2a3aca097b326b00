#!/usr/bin/env python3
"""front_end check SOURCE | build SOURCE OUT | trace SOURCE: a front end for the small language Little, on top of qbec.

Writes SOURCE as a text of QBE's language, and has the program qbec (QBEC in the environment, or `qbec` on the PATH) check it, compile it to
the executable OUT, or interpret it. What qbec says of the text's lines and names is said of those of SOURCE. The status is 1 where SOURCE
isn't in the grammar, and else that of qbec. README.md has the language.
"""
import os
import pathlib
import re
import shutil
import subprocess
import sys
import tempfile

QBEC = os.environ.get("QBEC", "qbec")
RUNTIME = pathlib.Path(__file__).resolve().parent / "runtime.ssa"

TOKEN = re.compile(r"""(?P<space>\s+|\#.*)|(?P<number>[0-9]+)|(?P<name>[A-Za-z_][A-Za-z_0-9]*)|(?P<string>"[^"\\\x00-\x1f\x7f]*")
    |(?P<sign>[=!<>]=|.)""", re.X)
WORDS = {"array", "function", "print", "return", "while", "if", "else"}
# The operations, those that bind tighter behind the others.
COMPARISONS = {"==": "ceql", "!=": "cnel", "<": "csltl", "<=": "cslel", ">": "csgtl", ">=": "csgel"}
LEVELS = [COMPARISONS, {"+": "add", "-": "sub"}, {"*": "mul", "/": "div", "%": "rem"}]


class Mistake(Exception):
    """SOURCE isn't in the grammar: the line, and what is told of it."""


class Text:
    """A text of QBE's language that is being written, and what of SOURCE its lines and its temporaries come from."""

    def __init__(self):
        self.lines = []  # pairs of a line and the line of SOURCE that it comes from
        self.origin, self.count = 0, 0  # the line of SOURCE that is being read, and how many names were made
        self.meanings = {}  # what the compiler's own temporaries stand for, in words of SOURCE
        self.function = []  # the function that is being written: its lines behind those of the first block,
        self.first_block = []  # and the first block, which nothing may jump to
        self.targets = set()  # the labels of the function that something jumps to
        self.is_open = True  # whether the block that is being written has no jump yet

    def new(self, sign):
        """A name that SOURCE can't have, since it begins with a dot: of a temporary (%), a label (@) or a datum ($)."""
        self.count += 1
        return f"{sign}.{self.count}"

    def instruction(self, line):
        """Behind a jump nothing is written, since nothing would lead there."""
        if self.is_open:
            self.function.append(("\t" + line, self.origin))

    def jump(self, line, *targets):
        if self.is_open:
            self.instruction(line)
            self.targets.update(targets)
            self.is_open = False

    def label(self, name):
        self.is_open |= name in self.targets
        if self.is_open:
            self.function.append((name, self.origin))

    def begin(self, head):
        self.function, self.targets, self.is_open = [], set(), True
        self.first_block = [(head, self.origin), ("@start", self.origin)]

    def end(self):
        """What comes to the end of its function gives 0."""
        self.jump("ret 0")
        self.lines += [*self.first_block, *self.function, ("}", self.origin)]


class Compiler:
    """Reads SOURCE from its first token to its last, and writes the text as it goes."""

    def __init__(self, source):
        self.source, self.text = source, Text()
        tokens = [(found.lastgroup, found[0], found.start()) for found in TOKEN.finditer(source) if found.lastgroup != "space"]
        self.tokens, self.at = [*tokens, ("end", "", len(source))], 0  # kinds, words and places; and the next one's number
        self.global_arrays, self.locals = set(), set()

    # Tokens: what the next one is, and what takes it.

    def word(self):
        return self.tokens[self.at][1]

    def line(self):
        return self.source.count("\n", 0, self.tokens[self.at][2]) + 1

    def take(self):
        self.at += 1
        return self.tokens[self.at - 1][1]

    def accept(self, word):
        return self.word() == word and bool(self.take())

    def require(self, holds, wanted):
        if not holds:
            raise Mistake(self.line(), f"{self.word() or 'the end'} stands where {wanted} has to")

    def expect(self, word):
        self.require(self.accept(word), word)

    def expect_kind(self, kind):
        self.require(self.tokens[self.at][0] == kind and self.word() not in WORDS, f"a {kind}")
        return self.take()

    def listed(self, item):
        """What stands between parentheses, with commas between."""
        self.expect("(")
        found = []
        while not self.accept(")"):
            if found:
                self.expect(",")
            found.append(item())
        return found

    # Values. Each of these writes what computes a value, and gives the operand that stands for it.

    def result(self, first, line):
        """A temporary that an instruction assigns. It means what SOURCE has from the token `first` to here."""
        made, (_, last, place) = self.text.new("%"), self.tokens[self.at - 1]
        self.text.meanings[made] = self.source[self.tokens[first][2]:place + len(last)]
        self.text.instruction(f"{made} =l {line}")
        return made

    def value(self, level=0):
        if level == len(LEVELS):
            return self.factor()
        first, left = self.at, self.value(level + 1)
        while self.word() in LEVELS[level]:
            operation, right = LEVELS[level][self.take()], self.value(level + 1)
            left = self.result(first, f"{operation} {left}, {right}")
        return left

    def factor(self):
        first = self.at
        if self.tokens[first][0] == "number":
            return self.take()
        if self.accept("-"):
            return self.result(first, f"neg {self.factor()}")
        if self.accept("("):
            inner = self.value()
            self.expect(")")
            return inner
        name = self.expect_kind("name")
        if self.word() == "(":
            return self.result(first, self.call(name))
        if self.word() == "[":
            return self.result(first, f"loadl {self.element(first, name)}")
        return self.variable(name)

    def variable(self, name):
        return ("$" if name in self.global_arrays - self.locals else "%") + name

    def element(self, first, name):
        """The address of an element, 8 bytes for each before it."""
        self.expect("[")
        index = self.value()
        self.expect("]")
        offset = self.result(first, f"mul {index}, 8")
        return self.result(first, f"add {self.variable(name)}, {offset}")

    def call(self, name):
        return f"call ${name}({', '.join('l ' + value for value in self.listed(self.value))})"

    # Statements and definitions.

    def block(self):
        self.expect("{")
        while not self.accept("}"):
            self.statement()

    def statement(self):
        self.text.origin = self.line()
        if self.word() in WORDS - {"function", "else"}:
            getattr(self, f"read_{self.take()}")()
            return
        first, name = self.at, self.expect_kind("name")
        if self.word() == "(":
            self.text.instruction(self.call(name))
        elif self.word() == "[":
            place = self.element(first, name)
            self.expect("=")
            self.text.instruction(f"storel {self.value()}, {place}")
        else:
            self.expect("=")
            self.text.instruction(f"%{name} =l copy {self.value()}")
            self.locals.add(name)
        self.expect(";")

    def read_print(self):
        if self.tokens[self.at][0] == "string":
            datum, words = self.text.new("$"), self.take()[1:-1]
            self.text.lines.append((f'data {datum} = {{ b "{words}\\n" }}', self.text.origin))
            self.text.instruction(f"call $print_text(l {datum}, l {len(words.encode()) + 1})")
        else:
            self.text.instruction(f"call $print_number(l {self.value()})")
        self.expect(";")

    def read_return(self):
        self.text.jump(f"ret {self.value()}")
        self.expect(";")

    def read_condition(self, then, other):
        """Goes to one of two labels. `jnz` looks at the low 32 bits of a value, and so it is compared with 0 before."""
        self.expect("(")
        tested = self.result(self.at, f"cnel {self.value()}, 0")
        self.expect(")")
        self.text.jump(f"jnz {tested}, {then}, {other}", then, other)

    def read_while(self):
        test, body, after = (self.text.new("@") for _ in range(3))
        self.text.label(test)
        self.read_condition(body, after)
        self.text.label(body)
        self.block()
        self.text.jump(f"jmp {test}", test)
        self.text.label(after)

    def read_if(self):
        then, other, after = (self.text.new("@") for _ in range(3))
        self.read_condition(then, other)
        self.text.label(then)
        self.block()
        self.text.jump(f"jmp {after}", after)
        self.text.label(other)
        if self.accept("else"):
            self.block()
        self.text.label(after)

    def read_array(self, is_global=False):
        """An array is a block of memory of its own, so that qbec sees where it ends. In a function that has to be made in the first block."""
        name = self.expect_kind("name")
        self.expect("[")
        size = 8 * int(self.expect_kind("number"))
        self.expect("]")
        self.expect(";")
        if is_global:
            self.global_arrays.add(name)
            self.text.lines.append((f"data ${name} = {{ z {size} }}", self.text.origin))
        else:
            self.locals.add(name)
            self.text.first_block.append((f"\t%{name} =l alloc8 {size}", self.text.origin))

    def read_function(self):
        name = self.expect_kind("name")
        parameters = self.listed(lambda: self.expect_kind("name"))
        self.locals = set(parameters)
        head = "export function w $main" if name == "main" else f"function l ${name}"
        self.text.begin(f"{head}({', '.join('l %' + parameter for parameter in parameters)}) {{")
        self.block()
        self.text.end()

    def read_program(self):
        while self.word():
            self.text.origin = self.line()
            if self.accept("array"):
                self.read_array(is_global=True)
            else:
                self.expect("function")
                self.read_function()
        return self.text


def said_of_source(said, text, path, source_path, source):
    """What qbec says, with lines and names of SOURCE in place of those of the text at `path`, and so with the line where `trace` shows an instruction."""
    def placed(found):
        line = text.lines[int(found[1]) - 1][1]
        return f"{source_path}:{line}" + (found[2] + source.splitlines()[line - 1].strip() if found[2] else "")

    said = re.sub(r"[%$]([A-Za-z_.][\w.]*)", lambda name: text.meanings.get(name[0], name[1]), said)
    return re.sub(re.escape(path) + r":(\d+)(?:(: (?:in|called by) \S+: ).*)?", placed, said)


def main():
    if len(sys.argv) != (4 if sys.argv[1:2] == ["build"] else 3) or sys.argv[1] not in ("check", "build", "trace"):
        sys.exit(__doc__.splitlines()[0])
    if not shutil.which(QBEC):
        sys.exit(f"front_end: there is no program {QBEC}")
    command, source_path = sys.argv[1:3]
    source = pathlib.Path(source_path).read_text(encoding="utf-8")
    try:
        text = Compiler(source).read_program()
    except Mistake as it:
        sys.exit("{}:{}: error: {}".format(source_path, *it.args))
    then = {"check": [], "build": [["build", "-o", sys.argv[-1]]], "trace": [["trace"]]}[command]
    with tempfile.TemporaryDirectory() as room:
        path = pathlib.Path(room) / "text.ssa"
        path.write_text("".join(line + "\n" for line, _ in text.lines), encoding="utf-8")
        # All is checked first: the others name a refusal by its number, and don't warn.
        for words in [["check"], *then]:
            ended = subprocess.run([QBEC, *words, path, RUNTIME], stderr=subprocess.PIPE, text=True, check=False)
            sys.stderr.write(said_of_source(ended.stderr, text, str(path), source_path, source))
            if ended.returncode != 0:
                sys.exit(ended.returncode)


main()
