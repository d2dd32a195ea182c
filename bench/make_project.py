"""Writes a project of so many classes and at most so many bytes: make_project.py CLASSES BYTES [FEATURES [METHODS [VOID]]] > FILE.

Classes come in pairs: one with fields of its own, and one that hands those on to it and adds as many more. With features,
each field, parameter, sent name, assignment, method and argument is marked, in turn with each feature. With METHODS, which is
any word, each class has a method for each of its fields, whose body accesses, calls, makes and casts. With VOID, which is any word
too, a constraint excludes every selection, so that an export ends once the project is read.
"""

import sys


def marks(features, index):
    return f"@F{index % features} " if features else ""


def ctor(name, handed_on, own, features):
    params = ", ".join(
        f"{marks(features, i)}Object {field}" for i, field in enumerate(handed_on + own)
    )
    sends = ", ".join(marks(features, i) + field for i, field in enumerate(handed_on))
    assigns = "".join(
        f"    {marks(features, i)}this.{field} = {field};\n" for i, field in enumerate(own)
    )
    return f"  {name}({params}) {{\n    super({sends});\n{assigns}  }}\n"


def method(name, field, index, features):
    mark = marks(features, index)
    body = f"(({name}) this.with_{field}({mark}seed, new {name}({mark}this.{field}, (Object) (seed)))).{field}"
    return f"  {mark}Object with_{field}({mark}Object seed, Object other) {{\n    return {body};\n  }}\n"


def class_text(name, parent, handed_on, own, features, methods):
    fields = "".join(f"  {marks(features, i)}Object {field};\n" for i, field in enumerate(own))
    body = fields + ctor(name, handed_on, own, features)
    if methods:
        body += "".join(method(name, field, i, features) for i, field in enumerate(own))
    return f"class {name} extends {parent} {{\n{body}}}\n"


def pair_text(number, count, features, methods):
    base = [f"base_field_{number}_{i}" for i in range(count)]
    more = [f"more_field_{number}_{i}" for i in range(count)]
    first, second = f"Record{number}", f"LongRecord{number}"
    return class_text(first, "Object", [], base, features, methods) + class_text(
        second, first, base, more, features, methods
    )


def widest_pair(number, most, features, methods):
    """The pair with the most fields that fits, with a comment behind it that fills up what is left."""
    count = 1
    while count < 64 and len(pair_text(number, count + 1, features, methods)) <= most:
        count += 1
    text = pair_text(number, count, features, methods)
    left = most - len(text)
    return text + ("//" + "." * (left - 3) + "\n" if left >= 3 else "\n" * left)


def main():
    classes, most = int(sys.argv[1]), int(sys.argv[2])
    features = int(sys.argv[3]) if len(sys.argv) > 3 else 0
    methods = len(sys.argv) > 4
    pairs = classes // 2
    line = f"features {', '.join(f'F{i}' for i in range(features))};\n" if features else ""
    if len(sys.argv) > 5:
        line += "constraint false;\n"
    each = (most - len(line)) // pairs
    sys.stdout.write(line)
    sys.stdout.write("".join(widest_pair(number, each, features, methods) for number in range(pairs)))


main()
