#!/usr/bin/env python3
"""Writes what `hg_store COMMAND --help` says: the texts of crates/hg_store/src/usages.rt, made of the manual.

    tools/usages.py       (after a change of man/hg_store.1)
"""

import os
import re
import subprocess
import textwrap

TOP = os.path.dirname(os.path.dirname(os.path.abspath(__file__)))
SOURCE = os.path.join(TOP, "crates/hg_store/src/usages.rt")
GROUPS = {"questions": {15, 16, 19, 20, 24, 27, 28, 30}}
GROUPS["writers"] = GROUPS["questions"] | {10, 11, 17}
SIGNS = {"\\(dq": '"', "\\&": "", "\\e": "\\", "\\-": "-"}


def read(name):
    with open(os.path.join(TOP, name), encoding="utf-8") as file:
        return file.read()


def plain(text):
    for sign, stands in SIGNS.items():
        text = text.replace(sign, stands)
    return text


def words_of(line):
    """The words of a line of a macro, as they are shown."""
    words, space = [], True
    for word in line.split():
        if word == "Op":
            return "".join(words) + f"{'' if not words else ' '}[{words_of(line.split('Op', 1)[1])}]"
        if word == "Pq":
            inner, end = re.fullmatch(r"(.*?)((?: [,.;:])?)", line.split("Pq", 1)[1]).groups()
            return "".join(words) + f"({words_of(inner)}){end.strip()}"
        if word in ("Oo", "Oc"):
            words.append((" " if words and word == "Oo" else "") + ("[" if word == "Oo" else "]"))
            space = word == "Oc"
        elif word == "Fl":
            words.append((" -" if words and space and not words[-1].endswith("[") else "-"))
            space = False
        elif word not in ("Cm", "Ar", "Li", "Pa", "Dl", "No"):
            punctuation = word in (",", ".", ";", ":")
            words.append((" " if words and space and not punctuation and not words[-1].endswith("[") else "") + word)
            space = True
    return plain("".join(words))


class Command:
    """An item of the manual: how the command is given, what it does, its example and its statuses."""

    def __init__(self, item):
        head, _, rest = item.partition("\n")
        text, _, rest = rest.partition(".Bd -literal -offset indent\n")
        example, _, statuses = rest.partition(".Ed\n")
        self.usage = words_of(head)
        self.name = self.usage.split()[0]
        self.text = " ".join(words_of(line[1:]) if line.startswith(".") else plain(line) for line in text.splitlines())
        self.text = re.sub(r" ([,.;:)]+)(?=\s|$)", r"\1", self.text)
        self.example = plain(example)
        self.statuses = set(map(int, re.findall(r"\b\d+\b", statuses))).union(*(GROUPS[name] for name in GROUPS if name in statuses))


def commands_of_manual():
    items = read("man/hg_store.1").split(".Bl -tag")[1].split(".El")[0].split(".It ")[1:]
    return [Command(item) for item in items if item.startswith("Cm")]


def meanings():
    """What each status means, in the words of the manual."""
    items = read("man/hg_store.1").split(".Sh EXIT STATUS")[1].split(".El")[0].split(".It ")[1:]
    texts = {}
    for item in items:
        number, _, text = item.partition("\n")
        words = " ".join(words_of(line[1:]) if line.startswith(".") else plain(line) for line in text.splitlines())
        texts[int(number)] = re.sub(r" ([,.;:)]+)(?=\s|$)", r"\1", words)
    return texts


def text_of(commands):
    """What is said of a command that is given in one way or in several."""
    said = []
    for command in commands:
        said.append(f"usage: hg_store {command.usage}\n")
        said.append(textwrap.fill(command.text, 78) + "\n")
        said.append(textwrap.indent(command.example, "    "))
    statuses = set().union(*(command.statuses for command in commands))
    said.append("Exit statuses:\n" + "".join(f"{number:4}  {text}\n" for number, text in meanings().items() if number in statuses))
    return "\n".join(said)


def escaped(text):
    return text.replace("\\", "\\\\").replace('"', '\\"').replace("\n", "\\n").replace("\t", "\\t")


def source():
    commands = commands_of_manual()
    names = list(dict.fromkeys(command.name for command in commands))
    arms = "".join(f'        "{name}" => "{escaped(text_of([it for it in commands if it.name == name]))}",\n' for name in names)
    listed = ", ".join(f'"{name}"' for name in names)
    return (
        "//! What is said of each command. tools/usages.py makes this file of the manual.\n\n"
        f"/// The commands.\npub const COMMANDS: [&str; {len(names)}] = [{listed}];\n\n"
        "/// What `COMMAND --help` says, where there is such a command.\npub fn usage(command: &str) -> Option<&'static str> {\n"
        f"    let text = match command {{\n{arms}        _ => return None,\n    }};\n    Some(text)\n}}\n"
    )


if __name__ == "__main__":
    with open(SOURCE, "w", encoding="utf-8") as file:
        file.write(source())
    subprocess.run(["rt", "fmt"], cwd=os.path.join(TOP, "crates/hg_store"), check=True)
