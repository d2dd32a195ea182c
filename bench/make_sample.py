"""Writes the sample, a product line in which nothing breaks: make_sample.py CLASSES [--plain] > FILE.

There are five features, of which one of the first two is selected. Classes stand in chains of eight; each has a field, which its
constructor takes behind those of the classes above, a method that gives the field, and one that gives its argument. With
--plain, it is the variant of all features: the same classes without the feature line, the constraint and the marks.
"""

import sys

FEATURES = 5
CHAIN = 8


def mark(index, plain):
    return "" if plain else f"@F{index % FEATURES} "


def ctor(number, base, plain):
    params = ", ".join(f"{mark(j, plain)}Object f{j}" for j in range(base, number + 1))
    sends = ", ".join(f"{mark(j, plain)}f{j}" for j in range(base, number))
    assign = f"{mark(number, plain)}this.f{number} = f{number};"
    return f"  C{number}({params}) {{ super({sends}); {assign} }}\n"


def class_text(number, plain):
    base = number - number % CHAIN
    parent = "Object" if number == base else f"C{number - 1}"
    return (
        f"class C{number} extends {parent} {{\n"
        f"  {mark(number, plain)}Object f{number};\n"
        f"{ctor(number, base, plain)}"
        f"  {mark(number, plain)}Object g{number}(Object x) {{ return this.f{number}; }}\n"
        f"  Object h{number}(Object x) {{ return x; }}\n"
        "}\n"
    )


def model_text():
    return f"features {', '.join(f'F{i}' for i in range(FEATURES))};\nconstraint F0 | F1;\n"


def main():
    words = sys.argv[1:]
    plain = "--plain" in words
    classes = int(next(word for word in words if word != "--plain"))
    sys.stdout.write("" if plain else model_text())
    sys.stdout.write("".join(class_text(number, plain) for number in range(classes)))


main()
