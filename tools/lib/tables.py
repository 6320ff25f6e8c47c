"""The tables tools/forms and tools/reasons: how the lines of a script are written, and what is mostly meant where one is refused."""

import os
import re

TOOLS = os.path.dirname(os.path.dirname(os.path.abspath(__file__)))


def rows(name):
    """The rows of a table of tools/, each a list of its fields."""
    with open(os.path.join(TOOLS, name), encoding="ascii") as file:
        lines = [line for line in file if line.strip() and not line.startswith("#")]
    return [[field.strip() for field in line.split("|")] for line in lines]


class Form:
    """The form of a line of a script, by its word."""

    def __init__(self, word, form, does, note, example):
        self.word, self.form, self.does, self.note, self.example = word, form, does, note, example
        self.is_command = form.startswith("CLIENT ")
        self.is_of_2 = note.startswith("version 2 alone")

    def line(self):
        return f"its form is: {self.form}" + (f"   ({self.note})" if self.note else "")


FORMS = {row[0]: Form(*row) for row in rows("forms")}
REASONS = dict(rows("reasons"))
HEADER = [word for word, form in FORMS.items() if not form.is_command]
COMMANDS = [word for word, form in FORMS.items() if form.is_command]


def help_of(word):
    """What a word of a script does and how it is written, or None."""
    form = FORMS.get(word)
    if not form:
        return None
    said = [form.form, f"    {form.does}"]
    if form.note:
        said.append(f"    {form.note}")
    return "\n".join([*said, f"    for example: {form.example}"])


def parse_refusal(said):
    """The number of the line and the reason in `refused: line 6: bad form`, or None."""
    found = re.match(r"refused: line (\d+): (.*)", said)
    return (int(found[1]), found[2]) if found else None


def form_of(fields, in_header):
    """The form of a refused line by its word, where it has one."""
    word = fields[0] if in_header else (fields[1:] or [""])[0]
    form = FORMS.get(word)
    return form if form and form.is_command != in_header else None


def hints(lines, number, reason):
    """What helps to mend line `number` of the script with these lines, which is refused for this reason: up to two sentences."""
    line = lines[number - 1] if 0 < number <= len(lines) else ""
    in_header = "begin" not in lines[: max(number - 1, 0)]
    form = form_of(line.split(" "), in_header)
    said = []
    if reason == "not ascii":
        return [not_ascii(line)]
    if reason in ("bad header", "unknown command") and form and form.is_of_2 and lines[:1] == ["fuzzylog 1"]:
        return [f"a script with {form.word} is of version 2, so its first line is: fuzzylog 2"]
    if reason == "bad header":
        said = ["the lines of the header stand in this order: " + ", ".join(HEADER)]
        if line.split(" ")[1:2] and line.split(" ")[1] in COMMANDS:
            said.append("commands come after the line: begin")
        return said
    if reason == "unknown command":
        return ["the commands are: " + ", ".join(COMMANDS)]
    if reason == "bad form" and "" in line.split(" "):
        said = ["there are two spaces in a row, or one at an end of the line; one space stands between two fields"]
    elif reason == "bad form" and " #" in line:
        said = ["a comment is a line of its own"]
    elif reason in REASONS:
        said = [REASONS[reason]]
    if reason == "unknown client":
        form = FORMS.get(line.split(" ")[0])
    return said + ([form.line()] if form else [])


def not_ascii(line):
    if line.endswith("\r"):
        return "the line ends with CR LF; a line of a script ends with a line feed alone"
    if "\t" in line:
        return "there is a tab; one space stands between two fields"
    return "a line has plain ASCII characters alone, from the space to ~"
