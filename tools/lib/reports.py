"""Reads scripts and reports (docs/FORMATS.md), and runs the program on a script. Every tool over reports stands on this."""

import os
import re
import subprocess
import sys


class Refused(Exception):
    """The program refuses the script, with this line."""


class Failed(Exception):
    """A tool or the program ends with this status, and says why on standard error."""

    def __init__(self, status, why):
        super().__init__(why)
        self.status = status


# --- Scripts.


class Command:
    """A command of a script: its line's number, its client, its word, and the fields behind the word."""

    def __init__(self, number, text):
        self.number, self.text = number, text
        self.client, self.word, *self.fields = text.split(" ")

    def without_client(self):
        return self.text.split(" ", 1)[1]


class Script:
    """A script that the program accepts."""

    def __init__(self, data):
        self.lines = data.decode("ascii").split("\n")
        if self.lines[-1] == "":
            self.lines.pop()
        self.begin = next(i for i, line in enumerate(self.lines) if line == "begin") + 1
        self.regions, self.colours, self.clients, self.objects = [], [], {}, {}
        for line in self.lines[: self.begin]:
            word, *fields = line.split(" ")
            if word == "regions":
                self.regions = fields
            elif word == "colours":
                self.colours = fields
            elif word == "client":
                self.clients[fields[0]] = fields[1]
            elif word in ("map", "tx", "queue", "tree", "parts"):
                self.objects[fields[0]] = (word, fields[1], fields[2:])
            elif word == "causal":
                self.objects[fields[0]] = (word, None, fields[1:])
        numbered = list(enumerate(self.lines, 1))[self.begin :]
        self.commands = [Command(number, line) for number, line in numbered if line and not line.startswith("#")]
        self.command_at = {command.number: command for command in self.commands}

    def up_to(self, number):
        """The bytes of the lines up to one."""
        return "".join(line + "\n" for line in self.lines[:number]).encode("ascii")


# --- Reports.


def numbers(text):
    return [int(number) for number in text.split(",")]


def listed(text):
    return [] if text == "-" else text.split(",")


class Reply:
    """What a command is answered. Its points are (colour, place, position), its syncs (colour, events, snapshot)."""

    def __init__(self, client, fields):
        self.client, self.number, self.word, self.answer = client, int(fields[0]), fields[1], fields[2:]
        self.nodes, self.points, self.syncs, self.raises = [], [], [], []
        for field in self.answer:
            found = re.fullmatch(r"([a-z][a-z0-9]*)([!?])(\d+)(?:@(\d+)|/([\d,]+))?", field)
            if not found:
                continue
            colour, kind, place, position, snapshot = found.groups()
            if position:
                self.points.append((colour, int(place), int(position)))
            elif snapshot:
                self.syncs.append((colour, int(place), numbers(snapshot)))
            else:
                self.raises.append((colour, kind, int(place)))

    def text(self):
        return " ".join(self.answer)


class Row:
    """A begun append to several colours, by its line `row REGION CLIENT.NUMBER ID COLOUR=MARK .. OUTCOME`."""

    def __init__(self, fields):
        self.region, self.name, self.id = fields[1:4]
        self.client = self.name.split(".")[0]
        self.marks = dict(field.split("=") for field in fields[4:] if "=" in field)
        self.outcome = " ".join(field for field in fields[4:] if "=" not in field)


class Event:
    """An event of a column: its place, its client, what it is, and what the report says of it."""

    def __init__(self, fields):
        self.place, self.client, self.what = int(fields[0]), fields[1], fields[2]
        rest = fields[3:]
        self.id = None
        self.carried = []
        if self.what in ("single", "propose"):
            self.id, _, floor, _, wants, _, stamp = rest
            self.floor, self.wants, self.stamp = int(floor), numbers(wants), int(stamp)
        elif self.what == "settle":
            self.id = rest[0]
            self.final = int(rest[2]) if rest[1] == "final" else None
            self.gone = rest[2] if rest[1] == "gone" else None
        elif self.what == "raise":
            self.clock = int(rest[0])
        elif self.what == "give":
            self.region, self.start = rest[0], int(rest[1])
        elif self.what == "carry":
            self.region, self.start = rest[0], int(rest[1])
            for node in rest[2:]:
                found = re.fullmatch(r"([a-z][a-z0-9]*\.\d+):(\d+)/([\d,]+)", node)
                self.carried.append((found[1], int(found[2]), numbers(found[3])))
        elif self.what == "trim":
            self.below = numbers(rest[0])

    def is_help(self):
        """Whether it completes another client's append."""
        return self.id is not None and self.id.split(".")[0] != self.client


class Column:
    """One region's copy of one colour: its events and its closing line. Its queue is of (id, stamp, whether it is open)."""

    def __init__(self, region, colour):
        self.region, self.colour, self.events = region, colour, []

    def close(self, fields):
        said = dict(zip(fields[1::2], fields[2::2]))
        self.clock, self.cut, self.base = int(said["clock"]), numbers(said["cut"]), numbers(said["base"])
        self.line = [(id, int(stamp)) for id, stamp in (node.split(":") for node in listed(said["line"]))]
        queue = [node.rstrip("?").split(":") + [node.endswith("?")] for node in listed(said["queue"])]
        self.queue = [(id, int(stamp), is_open) for id, stamp, is_open in queue]

    def chain(self, region):
        """What the column has of a region's chain, as ids in their order: its own line, or what was carried."""
        if region == self.region:
            return [id for id, _ in self.line]
        return [id for event in self.events if event.what == "carry" and event.region == region for id, _, _ in event.carried]

    def name(self):
        return f"{self.colour} in {self.region}"


class Report:
    """A report: replies by line number, rows, and columns by region and colour."""

    def __init__(self, text):
        self.replies, self.rows, self.columns = {}, [], {}
        client = reply = column = None
        for line in text.split("\n")[1:-1]:
            fields = line.split(" ")
            if fields[0] == "client":
                client = fields[1]
            elif fields[0] == "row":
                self.rows.append(Row(fields))
            elif fields[0] == "column":
                column = self.columns[fields[1], fields[2]] = Column(fields[1], fields[2])
            elif fields[0] == "+":
                reply.nodes.append((fields[1], int(fields[2]), fields[3]))
            elif fields[0] == "=":
                column.close(fields)
            elif column:
                column.events.append(Event(fields))
            else:
                reply = Reply(client, fields)
                self.replies[reply.number] = reply

    def events(self):
        return [(column, event) for column in self.columns.values() for event in column.events]


def made_by(script, report):
    """The id of the node that each command appended, by the command's line number, where the report tells it."""
    made = {}
    for number, reply in report.replies.items():
        region = script.clients[reply.client]
        for colour, place, _ in reply.points:
            made[number] = report.columns[region, colour].events[place].id
        # A node that could not be read behind is told by its stamp; a client's nodes have different ones.
        if reply.answer[0] == "unread":
            columns = [column for column in report.columns.values() if column.region == region]
            nodes = [node for column in columns for node in column.line]
            made[number] = next(id for id, stamp in nodes if id.split(".")[0] == reply.client and stamp == int(reply.answer[1]))
        # The last row of a client that stops is that of its stop, which begins it as its first step.
        if reply.word == "stop" and reply.answer[:1] == ["stopped"] and reply.answer[1] != "0":
            made[number] = [row.id for row in report.rows if row.client == reply.client][-1]
    return made


def helps_for_running(script, report):
    """The events by which an append was completed whose client had not stopped, by another one."""
    made = made_by(script, report)
    left = {made[number] for number, reply in report.replies.items() if reply.word == "stop" and number in made}
    return [event for _, event in report.events() if event.is_help() and event.id not in left]


def named_by(script, report):
    """The line of the command whose reply names an event, by region, colour and place."""
    named = {}
    for number, reply in report.replies.items():
        command, home = script.command_at[number], script.clients[reply.client]
        for colour, place, _ in reply.points:
            named[home, colour, place] = number
        for colour, kind, place in reply.raises:
            if kind == "!":
                named[home, colour, place] = number
        if reply.word == "trim" and reply.answer[0] == "ok":
            named[home, command.fields[0], int(reply.answer[1][1:])] = number
        if reply.word == "pull" and reply.answer[0] == "ok":
            for region, at in ((command.fields[0], reply.answer[3]), (home, reply.answer[5])):
                if at[0] == "!":
                    named[region, command.fields[1], int(at[1:])] = number
    return named


# Of an object's commands the text follows from the command (docs/FORMATS.md), that of a commit apart: it tells versions.
TEXT_OF = {
    ("put", "map"): lambda fields: f"p:{fields[1]}={fields[2]}",
    ("put", "causal"): lambda fields: f"c:{fields[1]}={fields[2]}",
    ("del", "map"): lambda fields: f"d:{fields[1]}",
    ("putall", "map"): lambda fields: "m:" + ",".join(fields[1:]),
    ("enq", "queue"): lambda fields: f"e:{fields[1]}",
    ("deq", "queue"): lambda fields: "q:",
    ("mk", "tree"): lambda fields: f"k:{fields[1]}={fields[2]}",
    ("rm", "tree"): lambda fields: f"x:{fields[1]}",
    ("mv", "tree"): lambda fields: f"v:{fields[1]}>{fields[2]}",
}


def texts_of(script, report, made):
    """The text of each node, where the script or a reply tells it."""
    texts = {id: text for reply in report.replies.values() for id, _, text in reply.nodes}
    for number, id in made.items():
        command = script.command_at[number]
        if command.word in ("append", "only", "stop"):
            texts[id] = command.fields[-1]
        elif command.fields[0] in script.objects:
            text = TEXT_OF.get((command.word, script.objects[command.fields[0]][0]))
            if text:
                texts[id] = text(command.fields)
    return texts


# --- Running.


def run(program, data):
    """The report of a script, as text."""
    try:
        ended = subprocess.run([program, "step"], input=data, capture_output=True)
    except OSError as error:
        raise Failed(1, f"{program} can't be run: {error.strerror}")
    if ended.returncode == 2:
        raise Refused(ended.stdout.decode("ascii").rstrip("\n"))
    if ended.returncode != 0:
        status = ended.returncode if ended.returncode > 0 else 128 - ended.returncode
        raise Failed(status, ended.stderr.decode("utf-8", "replace").strip() or f"{program} ended with status {status}")
    return ended.stdout.decode("ascii")


def read(file):
    """The bytes of a script; one more than a script may have at most."""
    try:
        with open(file, "rb") as script:
            return script.read((1 << 20) + 1)
    except OSError as error:
        raise Failed(3, f"{file} can't be read: {error.strerror}")


class Runs:
    """A script, its report, and those of its beginnings, each as it is asked for."""

    def __init__(self, program, data):
        self.program = program
        self.report = Report(run(program, data))
        self.script = Script(data)
        self.beginnings = {}
        self.made = made_by(self.script, self.report)
        self.named = named_by(self.script, self.report)
        self.texts = texts_of(self.script, self.report, self.made)
        self.maker = {id: number for number, id in self.made.items()}

    def after(self, number):
        """The report of the lines up to one: what it shows of them is what the whole report shows of them, too."""
        if number not in self.beginnings:
            self.beginnings[number] = Report(run(self.program, self.script.up_to(number)))
        return self.beginnings[number]

    def new_events(self, number):
        """The events that the command in this line makes, with their columns."""
        before, after = self.after(number - 1), self.after(number)
        return [
            (column, event)
            for key, column in after.columns.items()
            for event in column.events[len(before.columns[key].events) :]
        ]


def main(tool):
    """Runs a tool on the words of the command line, and ends with its status."""
    try:
        status = tool(sys.argv[1:])
        sys.stdout.flush()
    except Refused as refused:
        # The launcher says the rest on standard error.
        print(refused, flush=True)
        status = 2
    except Failed as failed:
        print(f"fuzzylog: {failed}", file=sys.stderr)
        status = failed.status
    except KeyboardInterrupt:
        status = 130
    except OSError as error:
        # Of files that are read `read` has told already, so this is standard output.
        print(f"fuzzylog: the output failed: {error.strerror}", file=sys.stderr)
        status = 4
    # Not by sys.exit, which flushes once more what could not be written.
    sys.stderr.flush()
    os._exit(status or 0)
