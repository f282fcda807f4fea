"""Edits of a crate's sources, and the functions that they change."""

import os
import re

FUNCTION = re.compile(r'( *)(?:pub(?:\([^)]*\))? )?(?:const )?(?:unsafe )?(?:extern "C" )?fn (\w+)')


def head_of(line):
    """The trait and the type that an `impl` line names, without their generics."""
    words, depth = "", 0
    for letter in line.replace("->", ""):
        depth += (letter == "<") - (letter == ">")
        words += letter if depth == 0 and letter != ">" else ""
    named = words.removeprefix("impl").split("{")[0].split(" where ")[0].split(" for ")
    names = [it.split("::")[-1].strip() for it in named]
    return (names[0] if len(names) > 1 else ""), names[-1]


def functions_in(text):
    """Each function of a file: its first and last line from 0, and its path within the file's module."""
    lines, owner, found = text.split("\n"), (), []
    for number, line in enumerate(lines):
        if line.startswith("impl"):
            trait, name = head_of(line)
            owner = (f"{name}{trait}" if trait else name,)
        elif line.startswith("}"):
            owner = ()
        function = FUNCTION.match(line)
        if function:
            # it ends at the brace that closes it, which stands below its first letter
            closing = (it for it in range(number, len(lines)) if lines[it].startswith(function[1] + "}"))
            first = number
            while first and lines[first - 1].strip().startswith("#["):
                first -= 1
            found.append((first, next(closing, number), (*owner, function[2])))
    return found


def text_of(path):
    """A file's text; an empty one where there is no file."""
    if not os.path.isfile(path):
        return ""
    with open(path, encoding="utf-8") as file:
        return file.read()


class Edit:
    """Texts of a crate's files, each with what takes its place, and the functions at which it is tried.

    These are the functions in which the texts stand, and those that a line `at: FUNCTION` names, for what stands
    outside of all: a constant. It has no functions where none is named, or a text doesn't stand once.
    """

    def __init__(self, path, folder):
        self.path, self.name = path, os.path.basename(path)
        self.text = text_of(path)
        self.pairs = list(self.read())
        self.named = [line[len("at: ") :].strip() for line in self.text.split("\n") if line.startswith("at: ")]
        self.fits, self.places = self.find(folder)
        self.functions = list(dict.fromkeys([place[0] for place in self.places] + self.named if self.fits else []))

    def read(self):
        """Each file, text and what takes its place."""
        name = old = None
        for line in self.text.split("\n"):
            word, _, text = line.partition(": ")
            name, old = (text.strip(), old) if word == "file" else (name, text if word == "old" else old)
            if word == "new" or line == "new:":
                yield name, old, text

    def find(self, folder):
        """Whether it can be tried at functions, and those in which its texts stand: the path of each, as the prover
        takes it, and its file and lines."""
        places, texts = {}, {}
        for name, old, new in self.pairs:
            text = texts[name] if name in texts else text_of(os.path.join(folder, name))
            if not name.startswith("src/") or text.count(old) != 1:
                return False, []
            # a text may stand in what an earlier one gave way to; each is within a line
            line, texts[name] = text[: text.index(old)].count("\n"), text.replace(old, new)
            around = [it for it in functions_in(text) if it[0] <= line <= it[1]]
            if not around and not self.named:
                return False, []
            for first, last, own in around[-1:]:
                module = os.path.splitext(name)[0].split("/")[1:]
                # a method is named by its type, in whichever file it stands
                owner = [] if len(own) > 1 or module in (["lib"], ["main"]) else module
                places["::".join([*owner, *own])] = name, first + 1, last + 1
        return True, [(function, *place) for function, place in places.items()]

    def make(self, folder):
        """Makes it in a copy of the crate."""
        for name, old, new in self.pairs:
            path = os.path.join(folder, name)
            text = text_of(path).replace(old, new)
            with open(path, "w", encoding="utf-8") as file:
                file.write(text)

    def is_of(self, name):
        """Whether a function of this name is one that it changes, or a closure in one."""
        ends = [it.split("::")[-1] for it in self.functions]
        return any(name.endswith("::" + it) for it in self.functions) or any(f"fn::{it}::" in name for it in ends)

    def is_blamed(self, error):
        """Whether an error stands in a function that it changes, or in its proof."""
        name, line = error.removeprefix("./").split(":")[:2]
        if any(name == file and first <= int(line) <= last for _, file, first, last in self.places):
            return True
        # the folder of a recursive function's proof has a + in front
        own = name.replace("/+", "/") if name.startswith("proofs/") else ""
        return any("/".join(["", *function.split("::"), ""]) in own for function in self.functions)
