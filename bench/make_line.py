"""Writes a product line in which nothing breaks, and of which no two variants are equal: make_line.py FEATURES CLASSES > FILE.

Every selection of the features is valid. Classes stand in chains of four, the last of which are marked, in turn with each feature.
Each class has a field with a mark and one without, which its constructor takes behind those of the classes above, and methods that
read, call, make and cast. Fields, parameters, sent names, assignments, methods and arguments are marked, in turn with each feature.
"""

import sys

CHAIN = 4


def chain_of(number):
    """The classes from the first of a class's chain to the class itself."""
    return range(number - number % CHAIN, number + 1)


def is_marked(number):
    return number % CHAIN == CHAIN - 1


class Line:
    """A product line with so many features and classes."""

    def __init__(self, features, classes):
        self.features = features
        self.classes = classes

    def mark(self, index):
        return f"@F{index % self.features} "

    def chain_mark(self, number):
        """The mark of the class at the end of a class's chain."""
        return self.mark(number // CHAIN)

    def fields(self, numbers, before=""):
        """The fields of these classes, in order; without a text before them, their names alone."""
        return ", ".join(f"{self.mark(i)}{before}f{i}, {before}u{i}" for i in numbers)

    def ctor(self, number):
        chain = chain_of(number)
        assigns = f"{self.mark(number)}this.f{number} = f{number}; this.u{number} = u{number};"
        return f"  C{number}({self.fields(chain, 'Object ')}) {{ super({self.fields(chain[:-1])}); {assigns} }}\n"

    def methods(self, number):
        own, mark, next_mark = f"C{number}", self.mark(number), self.mark(number + 1)
        made = ", ".join(f"{self.mark(i)}x, this.u{i}" for i in chain_of(number))
        texts = [
            f"{mark}Object get{number}() {{ return this.f{number}; }}",
            f"Object second{number}({next_mark}Object x, Object y) {{ return y; }}",
            f"Object called{number}({own} c) {{ return c.second{number}({next_mark}c.u{number}, this); }}",
            f"Object cast{number}(Object o) {{ return (({own}) o).second{number}({next_mark}o, o); }}",
            f"{own} made{number}(Object x) {{ return new {own}({made}); }}",
            f"{own} deep{number}(Object x) {{ return this.made{number}(x).made{number}(new {own}({made})); }}",
            f"Object picked({self.chain_mark(number)}Object x, Object y) {{ return y; }}",
        ]
        below = number + 1
        if is_marked(below) and below < self.classes:
            texts.append(f"{self.chain_mark(number)}{own} above{number}(C{below} c) {{ return c; }}")
        return "".join(f"  {text}\n" for text in texts)

    def class_text(self, number):
        mark = self.chain_mark(number) if is_marked(number) else ""
        parent = "Object" if number % CHAIN == 0 else f"C{number - 1}"
        fields = f"  {self.mark(number)}Object f{number};\n  Object u{number};\n"
        return f"{mark}class C{number} extends {parent} {{\n{fields}{self.ctor(number)}{self.methods(number)}}}\n"

    def text(self):
        names = ", ".join(f"F{i}" for i in range(self.features))
        return f"features {names};\n" + "".join(map(self.class_text, range(self.classes)))


def main():
    features, classes = map(int, sys.argv[1:])
    sys.stdout.write(Line(features, classes).text())


main()
