#!/usr/bin/env python3
"""A front end for a part of Clover that writes a column file: written from docs/FORMAT.md alone, and no part of the product.

    tools/flattener.py SOURCE > NAME.col

It knows `local`, `function`, `public`, `if` with `elseif` and `else`, `return`, calls, numbers, names and signs: what examples/snow.clover has.
The test tools/tests/test_flattener.py holds what it writes to the example."""
import re
import struct
import sys

# docs/FORMAT.md, 'Records': kinds
DOCUMENT, LOCAL_DEFINITION, FUNCTION, PUBLIC_FUNCTION, RETURN, EXPRESSION_STATEMENT = 1, 10, 14, 15, 21, 25
IDENTIFIER, INTEGER, FLOAT, INFIX, NAME, IF, BLOCK, CALL, ABSENT = 30, 33, 34, 39, 40, 42, 43, 44, 49
# the same: infix values
SIGNS = {"=": 0, "+": 1, "-": 2, "*": 3, "/": 4, "%": 5, "==": 11, "!=": 12, ">": 13, "<": 14, ">=": 15, "<=": 16, "and": 17, "or": 18}
# 'Column files': widths of kind, span, line, column, value
WIDTHS = (4, 8, 9, 9, 21)
# how tightly signs hold, the loosest first
LEVELS = (("=",), ("and", "or"), ("==", "!="), (">", "<", ">=", "<="), ("+", "-"), ("*", "/", "%"))
NOWHERE = (0, 0)

TOKEN = re.compile(r"(?P<blank>[ \t]+|#[^\n]*)|(?P<newline>\n)|(?P<float>\d+\.\d+)|(?P<integer>\d+)|(?P<word>\w+)|(?P<sign>[<>=!]=|[-+*/%<>=(),])")


class Texts:
    """'Texts': numbers from 1 on, in the order of their coming; 1 is `main`."""

    def __init__(self):
        self.numbers = {"main": 1}

    def number(self, text):
        return self.numbers.setdefault(text, len(self.numbers) + 1)

    def lines(self):
        return "".join(f"{number:>8} {text}\n" for text, number in self.numbers.items())


def tokens(source):
    """Kind, text and place (line and column, both from 1) of each token."""
    line, start, at = 1, 0, 0
    while at < len(source):
        found = TOKEN.match(source, at)
        if not found:
            raise SystemExit(f"flattener: line {line}, column {at - start + 1}: no token")
        if found.lastgroup == "newline":
            line, start = line + 1, found.end()
        elif found.lastgroup != "blank":
            yield found.lastgroup, found.group(), (line, at - start + 1)
        at = found.end()
    yield "end of file", "", (line, at - start + 1)


class Flattener:
    """Reads a book and writes its records; texts get their numbers in the order of the records."""

    def __init__(self, source):
        self.tokens = list(tokens(source))
        self.at = 0
        self.texts = Texts()
        self.records = []

    # tokens

    def peek(self):
        return self.tokens[self.at][1]

    def take(self, *wanted):
        kind, text, place = self.tokens[self.at]
        if wanted and text not in wanted and kind not in wanted:
            raise SystemExit(f"flattener: line {place[0]}, column {place[1]}: `{text}` stands where {' or '.join(wanted)} was looked for")
        self.at += 1
        return text, place

    # records: 'kind, span, position, value', the span as soon as the subtree is there

    def node(self, kind, place, value, inside=lambda: None):
        at = len(self.records)
        self.records.append(None)
        inside()
        self.records[at] = (kind, len(self.records) - at, *place, value)

    def name(self):
        text, place = self.take("word")
        self.node(NAME, place, self.texts.number(text))

    # definitions

    def document(self, file):
        def definitions():
            while self.peek():
                self.definition()

        self.node(DOCUMENT, NOWHERE, self.texts.number(file), definitions)

    def definition(self):
        word, _ = self.take("local", "public", "function")
        if word == "local":
            return self.node(LOCAL_DEFINITION, NOWHERE, 0, self.constants)
        if word == "public":
            self.take("function")
        name, place = self.take("word")
        self.node(PUBLIC_FUNCTION if word == "public" else FUNCTION, place, self.texts.number(name), self.function)

    def constants(self):
        while True:
            self.name()
            if self.peek() == "=":
                self.take()
                self.number()
            else:
                self.node(ABSENT, NOWHERE, 0)
            if self.peek() != ",":
                return
            self.take()

    def function(self):
        self.take("(")
        while self.peek() != ")":
            self.name()
            if self.peek() == ",":
                self.take()
        self.take(")")
        self.statements("end")
        self.take("end")

    # statements

    def statements(self, *ends):
        while self.peek() not in ends:
            if self.peek() == "return":
                _, place = self.take()
                self.node(RETURN, place, 0)
            else:
                self.node(EXPRESSION_STATEMENT, NOWHERE, 0, self.expression)

    def if_expression(self):
        """After `if` or `elseif`: the condition, the true part and perhaps the false part."""
        self.expression()
        self.node(BLOCK, NOWHERE, 0, lambda: self.statements("elseif", "else", "end"))
        word, _ = self.take("elseif", "else", "end")
        if word == "else":
            self.node(BLOCK, NOWHERE, 0, lambda: self.statements("end"))
            self.take("end")
        elif word == "elseif":
            # 'An `elseif` is a false part with one statement, a 25 with a 42.'
            inner = lambda: self.node(IF, NOWHERE, 0, self.if_expression)
            self.node(BLOCK, NOWHERE, 0, lambda: self.node(EXPRESSION_STATEMENT, NOWHERE, 0, inner))

    # expressions: a sign's record stands before both its parts, so the left part's records are moved behind it

    def expression(self, level=0):
        if level == len(LEVELS):
            return self.called()
        start = len(self.records)
        self.expression(level + 1)
        while self.peek() in LEVELS[level]:
            sign, place = self.take()
            self.around(start, INFIX, place, SIGNS[sign], lambda: self.expression(level + 1))

    def around(self, start, kind, place, value, inside):
        """A record whose first child is what was written since `start`."""
        first = self.records[start:]
        del self.records[start:]

        def children():
            self.records.extend(first)
            inside()

        self.node(kind, place, value, children)

    def called(self):
        start = len(self.records)
        self.single()
        while self.peek() == "(":
            _, place = self.take()
            self.around(start, CALL, place, 0, self.parameters)

    def parameters(self):
        while self.peek() != ")":
            self.expression()
            if self.peek() == ",":
                self.take()
        self.take(")")

    def single(self):
        if self.peek() == "(":
            # 'Brackets leave no record.'
            self.take()
            self.expression()
            self.take(")")
        elif self.peek() == "if":
            self.take()
            self.node(IF, NOWHERE, 0, self.if_expression)
        elif self.tokens[self.at][0] == "word":
            text, place = self.take()
            self.node(IDENTIFIER, place, self.texts.number(text))
        else:
            self.number()

    def number(self):
        text, place = self.take("integer", "float")
        if "." in text:
            return self.node(FLOAT, place, struct.unpack("<Q", struct.pack("<d", float(text)))[0])
        self.node(INTEGER, place, int(text))


def column_file(records):
    return "".join("".join(f"{number:>{width}}" for number, width in zip(record, WIDTHS)) + "\n" for record in records)


def flatten(source, file):
    """The column file of a book, and its table of texts."""
    flattener = Flattener(source)
    flattener.document(file)
    return column_file(flattener.records), flattener.texts.lines()


if __name__ == "__main__":
    if len(sys.argv) != 2:
        sys.exit("usage: tools/flattener.py SOURCE")
    with open(sys.argv[1], encoding="utf-8") as source:
        print(flatten(source.read(), sys.argv[1].rsplit("/", 1)[-1])[0], end="")
