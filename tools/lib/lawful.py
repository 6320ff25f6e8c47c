"""Whether a report is one that a run of its script may have, in whatever order the commands of different clients were taken.

It is worked out from the text alone, beside the proved judge and without it: each line's form and place, each column from its events, the
rows with the events of their ids, each client's replies in their order with what they name in the columns, and what objects answer by a
fold over the nodes read.
"""

import re

import reports

NAME = r"[a-z][a-z0-9]*"
ID = NAME + r"\.\d+"
COUNTS = r"\d+(?:,\d+)*"
END = (1 << 62) - 1
EVENT = re.compile(
    rf"\d+ {NAME} (?:(?:single|propose) {ID} floor \d+ wants {COUNTS} stamp \d+|settle {ID} (?:final \d+|gone memory|gone stampend)|"
    rf"raise \d+|give {NAME} \d+|carry {NAME} \d+(?: {ID}:\d+/{COUNTS})+|trim {COUNTS})"
)
ROW = re.compile(rf"row {NAME} {ID} {ID}(?: {NAME}=(?:-|\d+|memory|stampend))+ (?:open|final \d+|gone memory|gone stampend)")
# The commands that append, those that read at a stamp, and those whose own node stands before they read.
APPENDS = ("append", "only", "stop", "put", "del", "putall", "enq", "deq", "commit", "mk", "rm", "mv", "decide")
STAMPED = ("scan", "getall", "read", "commit", "mk", "rm", "mv", "ls", "decide")
UNREAD = ("deq", "commit", "mk", "rm", "mv")
# Those that answer by what they read alone, before a node of theirs stands.
READS = ("scan", "get", "getall", "read", "ls", "peek", "decide")
# Those that may complete what another client has left open.
HELPS = [word for word in APPENDS + STAMPED if word not in ("only", "stop")]


# The texts that objects fold.
WORD = r"[a-z0-9]{1,16}"
PAIR = rf"{WORD}={WORD}"
PUT = re.compile(rf"[pm]:({PAIR}(?:,{PAIR}){{0,3}})")
TRANSACTION = re.compile(rf"t:({WORD}@(?:-|\d+\.\d+\.\d+)(?:,{WORD}@(?:-|\d+\.\d+\.\d+))?)\|({PAIR}(?:,{PAIR})?)")
PATH = r"(?:/[a-z0-9]{1,8}){1,4}"
CHANGE = re.compile(rf"k:({PATH})={WORD}|x:({PATH})|v:({PATH})>({PATH})")
DECISION = re.compile(r"z:(0|[1-9]\d*)\.(0|[1-9]\d*)\.(0|[1-9]\d*)=([01])")


class Fault(Exception):
    """The report is none of the script's, for this reason."""


def need(holds, why):
    if not holds:
        raise Fault(why)


def at_most(one, other):
    return all(a <= b for a, b in zip(one, other))


class History:
    """A column, worked out from its events: what it is after each number of them."""

    def __init__(self, script, column):
        self.script, self.column, self.events = script, column, column.events
        self.own = script.regions.index(column.region)
        self.clients = list(script.clients)
        zero = (0,) * len(script.regions)
        # The entries of ids by stamp, whether they are open, and needs; those that are not in the line yet.
        self.entries, self.waiting, self.entered, self.noted = {}, {}, {}, [0] * len(zero)
        self.chains = [[] for _ in zero]
        self.clocks, self.cuts, self.bases, self.chains_held = [0], [zero], [zero], [zero]
        self.open_at = [[]]
        for place, event in enumerate(self.events):
            need(event.place == place, f"{column.name()}: event {event.place} stands at place {place}")
            need(event.client in script.clients, f"{column.name()}: an event by {event.client}")
            self.add(event)

    def key(self, id, stamp):
        client, count = id.split(".")
        return stamp, self.clients.index(client), int(count)

    def add(self, event):
        where = f"{self.column.name()}, event {event.place}"
        clock, cut, base = self.clocks[-1], self.cuts[-1], list(self.bases[-1])
        if event.what in ("single", "propose"):
            need(event.id not in self.entered, f"{where}: {event.id} enters twice")
            need(event.stamp == max(clock, event.floor) + 1 <= END, f"{where}: stamp {event.stamp} behind clock {clock}, floor {event.floor}")
            self.entered[event.id] = event
            needs = tuple(min(want, admitted) for want, admitted in zip(event.wants, cut))
            self.entries[event.id] = self.waiting[event.id] = [event.stamp, event.what == "propose", needs]
            clock = event.stamp
        elif event.what == "settle":
            entry = self.entries.get(event.id)
            need(entry and entry[1], f"{where}: {event.id} is not open")
            if event.gone:
                del self.entries[event.id], self.waiting[event.id]
            else:
                need(entry[0] <= event.final <= END, f"{where}: {event.id} was open under {entry[0]}")
                entry[0], entry[1] = event.final, False
                clock = max(clock, event.final)
        elif event.what == "raise":
            need(clock < event.clock <= END, f"{where}: a raise from {clock}")
            clock = event.clock
        elif event.what == "give":
            other = self.other(event, where)
            need(event.start <= len(self.chains[self.own]), f"{where}: a give from beyond the line")
            self.noted[other] = max(self.noted[other], event.start)
        elif event.what == "carry":
            other = self.other(event, where)
            need(event.start == len(self.chains[other]) and event.carried, f"{where}: a carry from {event.start}")
            self.chains[other] += [(id, stamp, tuple(needs)) for id, stamp, needs in event.carried]
        elif event.what == "trim":
            others = [other for other in range(len(base)) if other != self.own]
            for other in others:
                base[other] = max(base[other], min(event.below[other], cut[other]))
            least = min([event.below[self.own], cut[self.own]] + [self.noted[other] for other in others])
            base[self.own] = max(base[self.own], least)
        self.deliver(where)
        self.clocks.append(clock)
        self.cuts.append(self.admit(cut))
        self.bases.append(tuple(base))
        self.chains_held.append(tuple(len(chain) for chain in self.chains))
        self.open_at.append([stamp for stamp, is_open, _ in self.waiting.values() if is_open])

    def other(self, event, where):
        need(event.region in self.script.regions and event.region != self.column.region, f"{where}: region {event.region}")
        return self.script.regions.index(event.region)

    def deliver(self, where):
        """The own line goes on with each final entry below all open ones."""
        opened = min((self.key(id, entry[0]) for id, entry in self.waiting.items() if entry[1]), default=(END + 1,))
        final = sorted((self.key(id, entry[0]), id, entry) for id, entry in self.waiting.items() if not entry[1])
        for key, id, entry in final:
            if key < opened:
                line = self.chains[self.own]
                need(not line or self.key(*line[-1][:2]) < key, f"{where}: the line does not rise at {id}")
                line.append((id, entry[0], entry[2]))
                del self.waiting[id]

    def admit(self, cut):
        cut = list(cut)
        grew = True
        while grew:
            grew = False
            for region, chain in enumerate(self.chains):
                while cut[region] < len(chain) and at_most(chain[cut[region]][2], cut):
                    cut[region] += 1
                    grew = True
        return tuple(cut)

    def order(self, start, end):
        """The nodes between two snapshots in the order in which they are played."""
        at, played = list(start), []
        while tuple(at) != tuple(end):
            free = [
                (self.key(*chain[at[region]][:2]), region)
                for region, chain in enumerate(self.chains)
                if at[region] < end[region] and at_most(chain[at[region]][2], at)
            ]
            need(free, f"{self.column.name()}: nothing can be played behind {tuple(at)}")
            region = min(free)[1]
            played.append(self.chains[region][at[region]][:2])
            at[region] += 1
        return played

    def greatest_stamp(self, counts):
        """The greatest stamp of the nodes in a snapshot: each chain rises."""
        return max((chain[count - 1][1] for chain, count in zip(self.chains, counts) if count), default=0)

    def stamped(self, stamp, client):
        """The client's node under a stamp in the line, or None."""
        return next((id for id, of, _ in self.chains[self.own] if of == stamp and id.split(".")[0] == client), None)

    def closing_line(self):
        listed = lambda found: ",".join(found) or "-"
        counts = lambda found: ",".join(map(str, found))
        line = self.chains[self.own]
        queue = sorted((self.key(id, entry[0]), id, entry) for id, entry in self.waiting.items())
        return (
            f"= clock {self.clocks[-1]} line {listed([f'{id}:{stamp}' for id, stamp, _ in line])} "
            f"queue {listed([f'{id}:{entry[0]}' + '?' * entry[1] for _, id, entry in queue])} "
            f"cut {counts(self.cuts[-1])} base {counts(self.bases[-1])}"
        )


def changed(paths, made, removed, source, target):
    """Why a change of a tree with these paths fails, if it does, and the paths after it. The root is the path without a sign."""
    below = lambda front: {path for path in paths if path.startswith(f"{front}/")}
    parent = lambda path: path.rpartition("/")[0]
    if made:
        why = "exists" if made in paths else "noparent" if parent(made) not in paths else None
        return why, paths | {made}
    if removed:
        why = "missing" if removed not in paths else "notempty" if below(removed) else None
        return why, paths - {removed}
    moves = below(source) | {source}
    after = {target + path[len(source) :] for path in moves}
    if source not in paths:
        why = "missing"
    elif f"{target}/".startswith(f"{source}/"):
        why = "inside"
    elif target in paths:
        why = "exists"
    elif parent(target) not in paths:
        why = "noparent"
    else:
        why = "deep" if any(path.count("/") > 4 for path in after) else None
    return why, paths - moves | after


def shard_of(colours, key):
    return colours[sum(key.encode("ascii")) % len(colours)]


def pairs_of(text):
    return [pair.split("=") for pair in text.split(",")]


class Folds:
    """What objects answer, by the texts of the nodes in the order in which they are folded."""

    def __init__(self, judge):
        self.judge, self.script, self.known = judge, judge.script, {}
        # Of each commit: its object, and the keys and the stamp of the read that it uses up.
        self.read_of = {}
        # Of each decision: its object, the colour, how much of its line was synced, and whether it says that the transaction commits.
        self.decision_of = {}

    def text(self, id):
        if id not in self.known:
            command = self.script.command_at[self.judge.made[id]]
            if command.word in ("append", "only", "stop"):
                text = command.fields[-1]
            elif command.word == "commit":
                name, keys, stamp = self.read_of[command.number]
                _, writers, _ = self.transactions(name, stamp)
                versions = [f"{key}@{self.version(writers.get(key))}" for key in keys]
                text = f"t:{','.join(versions)}|{','.join(command.fields[1:])}"
            elif command.word == "decide":
                name, colour, count, commits = self.decision_of[command.number]
                text = f"z:{self.version(self.part(name, colour, count)[1])}={int(commits)}"
            else:
                text = reports.TEXT_OF[command.word, self.script.objects[command.fields[0]][0]](command.fields)
            self.known[id] = text
        return self.known[id]

    def version(self, writer):
        if writer is None:
            return "-"
        stamp, client, count = writer
        return f"{stamp}.{client}.{count}"

    def line(self, region, colour):
        history = self.judge.histories[region, colour]
        return history.chains[history.own]

    def value(self, nodes, key):
        """What a map has for a key, after these nodes of the key's colour."""
        value = None
        for id, *_ in nodes:
            text = self.text(id)
            put = PUT.fullmatch(text)
            if put and (text[0] == "m" or "," not in text):
                pairs = pairs_of(put[1])
                if len({name for name, _ in pairs}) == len(pairs):
                    value = dict(pairs).get(key, value)
            elif text == f"d:{key}":
                value = None
        return value

    def taken(self, nodes):
        """What the last of these nodes takes from a queue."""
        queue, took = [], None
        for id, *_ in nodes:
            text, took = self.text(id), None
            if re.fullmatch(f"e:{WORD}", text):
                queue.append(text[2:])
            elif text == "q:":
                took = queue.pop(0) if queue else None
        return took

    def written(self, history, counts, key):
        """The values of a causal map's key that no other write of it within the snapshot follows."""
        regions = range(len(counts))
        after = {}

        def followed(region, place):
            """How much of each chain a node follows."""
            if (region, place) not in after:
                reach = list(history.chains[region][place][2])
                reach[region] = max(reach[region], place)
                for other in regions:
                    if reach[other] > 0 and (other, reach[other] - 1) != (region, place):
                        reach = [max(pair) for pair in zip(reach, followed(other, reach[other] - 1))]
                after[region, place] = reach
            return after[region, place]

        writes = [
            (region, place, self.text(node[0])[len(key) + 3 :])
            for region in regions
            for place, node in enumerate(history.chains[region][: counts[region]])
            if re.fullmatch(f"c:{key}={WORD}", self.text(node[0]))
        ]
        reaches = [followed(region, place) for region, place, _ in writes]
        return sorted(value for region, place, value in writes if not any(reach[region] > place for reach in reaches))

    def nodes_of(self, name, stamp):
        """The nodes of all colours of an object up to a stamp, by their keys."""
        _, home, colours = self.script.objects[name]
        history = self.judge.histories[home, colours[0]]
        return {history.key(id, of): id for colour in colours for id, of, _ in self.line(home, colour) if of <= stamp}

    def transaction(self, id):
        """The keys with their versions that a transaction read, and the pairs that it writes, or None where the node is none."""
        found = TRANSACTION.fullmatch(self.text(id))
        reads = [read.split("@") for read in found[1].split(",")] if found else []
        writes = pairs_of(found[2]) if found else []
        if not found or any(len({name for name, _ in some}) < len(some) for some in (reads, writes)):
            return None
        return reads, writes

    def transactions(self, name, stamp):
        """Values, last committed writers, and each transaction's verdict, over the nodes up to a stamp."""
        nodes = self.nodes_of(name, stamp)
        values, writers, verdicts = {}, {}, {}
        for key in sorted(nodes):
            found = self.transaction(nodes[key])
            if not found:
                continue
            reads, writes = found
            differs = [name for name, version in reads if self.version(writers.get(name)) != version]
            if differs:
                verdicts[nodes[key]] = f"conflict {differs[0]} {writers.get(differs[0], (0,))[0]}"
            else:
                verdicts[nodes[key]] = f"committed {key[0]}"
                values.update(writes)
                writers.update({name: key for name, _ in writes})
        return values, writers, verdicts

    def part(self, name, colour, count):
        """What the first nodes of one colour's line tell of that shard: its values, and the key of the first transaction of which they do
        not tell whether it commits, or None. Such a one, and all behind it, write nothing yet."""
        _, home, colours = self.script.objects[name]
        history = self.judge.histories[home, colour]
        nodes = [(history.key(id, stamp), id) for id, stamp, *_ in self.line(home, colour)[:count]]
        decisions, values, writers = {}, {}, {}
        for _, id in nodes:
            said = DECISION.fullmatch(self.text(id))
            if said:
                decisions.setdefault(tuple(map(int, said.groups()[:3])), said[4] == "1")
        for key, id in nodes:
            found = self.transaction(id)
            if not found:
                continue
            reads, writes = found
            if all(shard_of(colours, read) == colour for read, _ in reads):
                commits = all(self.version(writers.get(read)) == version for read, version in reads)
            elif key in decisions:
                commits = decisions[key]
            else:
                return values, key
            if commits:
                values.update((written, value) for written, value in writes if shard_of(colours, written) == colour)
                writers.update((written, key) for written, _ in writes if shard_of(colours, written) == colour)
        return values, None

    def peeked(self, name, colour, count, key):
        """What these nodes tell of a key: its value, that it has none, or the stamp of the transaction that has to be decided before."""
        values, waits = self.part(name, colour, count)
        return f"undecided {waits[0]}" if waits else values.get(key, "none")

    def decided(self, name, colour, count, stamp):
        """The verdict on the first transaction of which these nodes do not tell it, by the nodes of all colours up to a stamp; none where
        there is no such transaction."""
        waits = self.part(name, colour, count)[1]
        if not waits:
            return "none"
        verdict = self.transactions(name, stamp)[2].get(self.nodes_of(name, stamp).get(waits), "none")
        return f"{verdict.split(' ')[0]} {waits[0]}"

    def tree(self, name, stamp):
        """The paths that are there, and what each change is told, over the nodes up to a stamp."""
        nodes = self.nodes_of(name, stamp)
        paths, told = {""}, {}
        for key in sorted(nodes):
            found = CHANGE.fullmatch(self.text(nodes[key]))
            if found:
                why, after = changed(paths, *found.groups())
                told[nodes[key]] = f"failed {why} {key[0]}" if why else f"done {key[0]}"
                paths = paths if why else after
        return paths, told

    def names(self, name, path, stamp):
        """The names in a path, or that it is missing."""
        paths, front = self.tree(name, stamp)[0], path.rstrip("/")
        if front not in paths:
            return "missing"
        return ",".join(sorted(at[len(front) + 1 :] for at in paths if at and at.rpartition("/")[0] == front)) or "-"


class Answer:
    """A reply's answer, taken from left to right by the form that its command has."""

    def __init__(self, number, text):
        self.number, self.words = number, text.split(" ")

    def next(self, form):
        word = self.words.pop(0) if self.words else ""
        found = re.fullmatch(form, word)
        need(found, f"line {self.number}: {word!r} where {form} may stand")
        return found[0] if not found.groups() else found.groups()

    def number_behind(self, word):
        self.next(word)
        return int(self.next(r"\d+"))

    def points(self, colours):
        return [(c, *self.next(rf"{c}([!?]\d+)@(\d+)")) for c in colours]

    def raises(self, colours):
        return [(c, self.next(rf"{c}([!?]\d+)")[0]) for c in colours]

    def syncs(self, colours):
        found = [(c, *self.next(rf"{c}\?(\d+)/({COUNTS})")) for c in colours]
        return [(colour, int(events), tuple(reports.numbers(counts))) for colour, events, counts in found]

    def end(self):
        need(not self.words, f"line {self.number}: {self.words} behind the answer")


class Judge:
    """Looks at one report of a script. Its faults come as Fault."""

    def __init__(self, script, text):
        self.script = script
        self.colour_at = {colour: number for number, colour in enumerate(script.colours)}
        self.read_lines(text)
        self.report = reports.Report(text)
        self.histories = {key: History(script, column) for key, column in self.report.columns.items()}
        for key, history in self.histories.items():
            need(self.closings[key] == history.closing_line(), f"{self.closings[key]!r}, and by its events {history.closing_line()!r}")
        self.helpers = {command.client for command in script.commands if command.word in HELPS}
        self.look_at_copies()
        self.look_at_rows()
        self.named, self.made, self.texts = set(), {}, {}
        self.hidden = []
        self.mentions = {}
        self.later = []
        self.folds = Folds(self)
        for client in script.clients:
            Walk(self, client)
        self.look_at_ids()
        self.look_at_rest()
        for look in self.later:
            look()

    def in_order(self, colours):
        return sorted(set(colours), key=self.colour_at.get)

    def read_lines(self, text):
        """Each line stands in its place and has its form."""
        script = self.script
        need(text.endswith("\n"), "the last line does not end")
        lines = text.split("\n")[:-1]
        place = 0

        def take(form):
            nonlocal place
            line = lines[place] if place < len(lines) else ""
            need(re.fullmatch(form, line), f"line {place + 1} of the report: {line[:80]!r} where {form} may stand")
            place += 1
            return line

        take(f"report {script.lines[0].split(' ')[1]}")
        for client in script.clients:
            take(f"client {client}")
            for command in script.commands:
                if command.client == client:
                    reply = take(rf"{command.number} {command.word} [a-z].*")
                    if command.word in ("sync", "scan"):
                        plays = re.search(r" (?:plays|nodes) (\d+)", reply)
                        for _ in range(int(plays[1]) if plays else 0):
                            take(rf"\+ {ID} \d+ [!-~]+")
        rows = []
        while place < len(lines) and lines[place].startswith("row "):
            fields = take(ROW.pattern).split(" ")
            client, number = fields[2].split(".")
            need(script.clients.get(client) == fields[1], f"a row of {client} in {fields[1]}")
            rows.append((script.regions.index(fields[1]), list(script.clients).index(client), int(number)))
        need(rows == sorted(set(rows)), "the rows do not stand in their order")
        self.closings = {}
        for region in script.regions:
            for colour in script.colours:
                take(f"column {region} {colour}")
                while place < len(lines) and lines[place][:1].isdigit():
                    take(EVENT.pattern)
                self.closings[region, colour] = take("= clock .*")
        need(place == len(lines), f"line {place + 1} of the report is one too many")

    def look_at_copies(self):
        """What was carried is the beginning of the other region's line, and no region notes more than was carried there."""
        regions = self.script.regions
        for (region, colour), history in self.histories.items():
            for number, other in enumerate(regions):
                if other != region:
                    origin = self.histories[other, colour]
                    chain = history.chains[number]
                    need(chain == origin.chains[origin.own][: len(chain)], f"{colour} of {other} in {region} is no copy")
                    need(origin.noted[history.own] <= len(chain), f"{colour} in {other} notes more than {region} holds")

    def look_at_rows(self):
        """A row's marks are the stamps of its proposals, its outcome follows from them, and each settling is by it."""
        self.row_of = {}
        self.steps = {}
        for (region, colour), history in self.histories.items():
            for event in history.events:
                if event.what in ("propose", "settle") and not event.is_help():
                    self.steps.setdefault((region, colour, event.id), []).append(event.place)
        numbers = {}
        for row in self.report.rows:
            client, number = row.name.split(".")
            need(int(number) == numbers.setdefault(client, 0), f"row {row.name}: one before it is missing")
            numbers[client] += 1
            need(row.id not in self.row_of and row.id.split(".")[0] == client, f"row {row.name}: id {row.id}")
            self.row_of[row.id] = row
            colours = list(row.marks)
            need(colours == self.in_order(colours) and len(colours) >= 2, f"row {row.name}: its colours")
            marks = list(row.marks.values())
            if "-" in marks:
                wanted = "open"
            elif "stampend" in marks:
                wanted = "gone stampend"
            elif "memory" in marks:
                wanted = "gone memory"
            else:
                wanted = f"final {max(map(int, marks))}"
            need(row.outcome in ("open", wanted), f"row {row.name}: {row.outcome} by its marks {marks}")
            for colour, mark in row.marks.items():
                history = self.histories[row.region, colour]
                event = history.entered.get(row.id)
                need((event is not None and event.what == "propose") == mark.isdigit(), f"row {row.name}: mark {colour}={mark}")
                need(event is None or event.stamp == int(mark), f"row {row.name}: mark {colour}={mark} and no such stamp")
                need(mark != "stampend" or history.clocks[-1] == END, f"row {row.name}: the stamps of {colour} have not ended")
        for (region, colour), history in self.histories.items():
            for event in history.events:
                if event.what in ("propose", "settle"):
                    need(not event.is_help() or event.client in self.helpers, f"{colour} in {region}: {event.client} completes nothing")
                    row = self.row_of.get(event.id)
                    if event.is_help():
                        waits = [c for c in self.script.colours if self.histories[region, c].entries.get(event.id, [0, False])[1]]
                        need(row and row.outcome != "open" and not waits, f"{colour} in {region}: {event.client} leaves {event.id} incomplete")
                    need(row and row.region == region and colour in row.marks, f"{colour} in {region}: {event.id} has no row there")
                    need(self.script.clients[event.client] == region, f"{colour} in {region}: an event of another region's client")
                if event.what == "settle":
                    said = f"final {event.final}" if event.final is not None else f"gone {event.gone}"
                    need(said == row.outcome, f"{colour} in {region}: {event.id} settled as {said}, its row {row.outcome}")
                if event.what == "single":
                    need(event.id not in self.row_of and event.id.split(".")[0] == event.client, f"{colour} in {region}: single {event.id}")

    def look_at_ids(self):
        """A client's ids count up from 0, and rise as its commands do."""
        entered = {id for history in self.histories.values() for id in history.entered} | set(self.row_of)
        for client in self.script.clients:
            counts = sorted(int(id.split(".")[1]) for id in entered if id.split(".")[0] == client)
            need(counts == list(range(len(counts))), f"the ids of {client}: {counts}")
            claimed = [int(id.split(".")[1]) for _, id in sorted((command, id) for id, command in self.made.items() if id.split(".")[0] == client)]
            need(claimed == sorted(claimed), f"the ids of {client} do not rise: {claimed}")
        for id in entered:
            need(id in self.made, f"no command appended {id}")

    def look_at_rest(self):
        """Each event that no reply names belongs to a command that may leave it, and stands between what that client names."""
        left = {}
        for key, history in self.histories.items():
            for event in history.events:
                kind = event.what
                if (key, event.place) in self.named or kind in ("propose", "settle"):
                    continue
                where = f"{history.column.name()}, event {event.place}"
                if kind == "give" and event.start < history.bases[event.place][history.own]:
                    pulls = [c for c in self.script.commands if c.client == event.client and c.word == "pull"]
                    need(any(c.fields == [key[0], key[1]] for c in pulls), f"{where}: {event.client} pulls nothing from here")
                    continue
                fits = [
                    number
                    for number, client, kinds in self.hidden
                    if client == event.client and (kind, *key) in kinds and number not in left.get((kind, key), ())
                    and self.lies_between(client, key, number, event.place)
                ]
                need(fits, f"{where}: no reply names this {kind} by {event.client}")
                left.setdefault((kind, key), []).append(fits[0])
        for key, history in self.histories.items():
            for id, entry in history.entries.items():
                if entry[1]:
                    last = [c for c in self.script.commands if c.client == id.split(".")[0]][-1]
                    need(self.report.replies[last.number].answer[0] == "stopped", f"{id} is open in {history.column.name()}")
        for row in self.report.rows:
            last = [c for c in self.script.commands if c.client == row.client][-1]
            need(row.outcome != "open" or self.report.replies[last.number].answer[0] == "stopped", f"row {row.name} is open")

    def lies_between(self, client, key, number, place):
        mentions = self.mentions.get((client, key), [])
        return all(named < place if line < number else named > place for line, named in mentions if line != number)


class Walk:
    """One client's replies in their order: what they say of the columns, and what the client has seen, played and stamped.

    A read that was refused may have played or not, and may have raised the client's floor or not: of each start all that it may be
    are kept, until an event or a sync tells.
    """

    def __init__(self, judge, client):
        self.judge, self.client, self.script = judge, client, judge.script
        self.region = self.script.clients[client]
        self.own = {colour: judge.histories[self.region, colour] for colour in self.script.colours}
        self.seen = {key: 0 for key in judge.histories}
        zero = (0,) * len(self.script.regions)
        self.starts = {colour: {zero} for colour in self.script.colours}
        self.floor, self.maybe_floors = 0, set()
        self.least_position = {colour: 0 for colour in self.script.colours}
        self.last_stamp, self.reads = 0, {}
        self.rows = [row for row in judge.report.rows if row.client == client]
        self.next_row = 0
        for command in self.script.commands:
            if command.client == client:
                self.command = command
                self.reply = judge.report.replies[command.number]
                self.answer = Answer(command.number, self.reply.text())
                self.look()

    def fail(self, why):
        raise Fault(f"line {self.command.number}: {why}")

    def need(self, holds, why):
        if not holds:
            self.fail(why)

    # --- What a command is of.

    def object_of(self):
        command = self.command
        of_the_log = ("append", "only", "stop", "sync", "scan", "pull", "trim")
        return self.script.objects.get(command.fields[0]) if command.word not in of_the_log else None

    def shard(self, key):
        return shard_of(self.object_of()[2], key)

    def append_colours(self):
        word, fields = self.command.word, self.command.fields
        if word in ("append", "only", "stop"):
            return self.judge.in_order(fields[-2].split(","))
        kind, _, colours = self.object_of()
        if word in ("enq", "deq") or kind == "causal":
            return colours
        keys = [field.split("=")[0] for field in fields[1:]]
        if word in ("put", "del", "decide"):
            keys = [fields[1]]
        if word == "commit":
            keys = keys + self.last_read[0]
        if kind == "tree":
            keys = [path.split("/")[1] for path in (fields[1:] if word == "mv" else fields[1:2])]
        return self.judge.in_order(map(self.shard, keys))

    def read_colours(self):
        word, fields = self.command.word, self.command.fields
        if word == "sync":
            return fields
        if word == "scan":
            return self.judge.in_order(fields[0].split(","))
        kind, _, colours = self.object_of()
        if word == "deq":
            return colours
        if word == "get":
            return [self.shard(fields[1])] if kind == "map" else colours
        if word == "peek":
            return [self.shard(fields[1])]
        if word == "getall":
            return self.judge.in_order(map(self.shard, fields[1:]))
        return self.judge.in_order(colours)

    # --- What a reply names.

    def at(self, key, text, fits):
        """A printed place of the client in a column: its event, or None for a look."""
        history, number = self.judge.histories[key], int(text[1:])
        if text[0] == "?":
            self.need(self.seen[key] <= number <= len(history.events), f"a look after {number} events of {history.column.name()}")
            self.seen[key] = number
            return None
        self.need(self.seen[key] <= number < len(history.events), f"event {number} of {history.column.name()}")
        event = history.events[number]
        self.need(event.client == self.client and (key, number) not in self.judge.named and fits(event), f"event {number} of {history.column.name()} is not its own")
        self.judge.named.add((key, number))
        self.judge.mentions.setdefault((self.client, key), []).append((self.command.number, number))
        self.seen[key] = number + 1
        return event

    def make(self, id):
        self.need(id not in self.judge.made, f"{id} is appended twice")
        self.judge.made[id] = self.command.number
        self.look_at_node(id)
        # Its own steps stand behind what the client had seen.
        for colour in self.own:
            steps = self.judge.steps.get((self.region, colour, id), [])
            self.need(not steps or self.seen[self.region, colour] <= steps[0], f"{id} is worked on in {colour} before what its client had seen")

    def see_steps(self, id):
        """The client has seen its own steps of a node."""
        for colour in self.own:
            steps = self.judge.steps.get((self.region, colour, id), [])
            if steps:
                self.seen[self.region, colour] = max(self.seen[self.region, colour], steps[-1] + 1)

    def look_at_node(self, id):
        """The node's floor and wants are the client's, in each column where it entered."""
        for colour, history in self.own.items():
            event = history.entered.get(id)
            if event:
                self.need(tuple(event.wants) in self.starts[colour], f"{id} wants {event.wants} of {colour}, and not {sorted(self.starts[colour])}")
                self.starts[colour] = {tuple(event.wants)}
        for colour, history in self.own.items():
            event = history.entered.get(id)
            if event:
                self.need(event.floor in self.floors(), f"{id} has the floor {event.floor}, and not {sorted(self.floors())}")

    def floors(self):
        """All that the client's floor may be."""
        least, may = self.floor, set(self.maybe_floors)
        for colour, starts in self.starts.items():
            stamps = [self.own[colour].greatest_stamp(start) for start in starts]
            least = max(least, min(stamps))
            may |= set(stamps)
        return {least} | {stamp for stamp in may if stamp > least}

    def take_points(self, colours, stamp, row):
        found = self.answer.points(colours)
        if row is not None:
            self.take_row(row)
            id = self.rows[row].id
        else:
            place = found[0][1]
            self.need(place[0] == "!", "a point of one colour that is no event")
            history = self.own[colours[0]]
            self.need(int(place[1:]) < len(history.events), f"no event {place}")
            id = history.events[int(place[1:])].id
            self.need(id is not None, f"{place} appends nothing")
        self.make(id)
        kind = "single" if row is None else "propose"
        for colour, place, position in found:
            history = self.own[colour]
            event = self.at((self.region, colour), place, lambda event: event.what == kind and event.id == id)
            if event is None:
                helped = history.entered.get(id)
                self.need(helped and helped.client != self.client and helped.place < self.seen[self.region, colour], f"nobody proposed {id} in {colour}")
            line, position = history.chains[history.own], int(position)
            self.need(position < len(line) and line[position][:2] == (id, stamp), f"{id} is not at place {position} of {colour} under {stamp}")
            self.need(position >= self.least_position[colour], f"{id} stands before what the client has seen of {colour}")
            self.least_position[colour] = position + 1
        self.see_steps(id)
        self.stand(id, colours, stamp)

    def stand(self, id, colours, stamp):
        """The client's node stands under one stamp in the lines of all its colours and in no other."""
        for colour, history in self.own.items():
            stands = id in history.entries and history.entries[id][:2] == [stamp, False] and id not in history.waiting
            self.need(stands == (colour in colours) and (id in history.entered) == (colour in colours), f"{id} in the line of {colour}")
        self.need(stamp > self.last_stamp, f"stamp {stamp} behind {self.last_stamp}")
        self.last_stamp = stamp
        self.floor = max(self.floor, stamp)

    def take_row(self, number):
        self.need(number == self.next_row and number < len(self.rows), f"row {number}")
        self.need(list(self.rows[number].marks) == self.append_colours(), f"row {number} has other colours")
        self.next_row += 1

    def take_syncs(self, colours):
        for colour, events, counts in self.answer.syncs(colours):
            key, history = (self.region, colour), self.own[colour]
            self.at(key, f"?{events}", None)
            self.need(counts == history.cuts[events], f"snapshot {counts} of {colour} after {events} events")
            self.need(counts[history.own] >= self.least_position[colour], f"a snapshot of {colour} without the client's own nodes")
            self.least_position[colour] = counts[history.own]
            fits = {start for start in self.starts[colour] if at_most(history.bases[events], start) and at_most(start, counts)}
            self.need(fits, f"{colour} was trimmed")
            self.starts_before = fits
            self.starts[colour] = {counts}
            self.floor = max(self.floor, history.greatest_stamp(counts))

    def take_stamped(self, stamp, colours):
        """A stamped read: raises, syncs, and what is there up to its stamp."""
        self.need(any(stamp >= floor for floor in self.floors()), f"stamp {stamp} below the client's floor")
        reached = stamp in self.floors()
        before = dict(self.seen)
        for colour, place in self.answer.raises(colours):
            key, history = (self.region, colour), self.own[colour]
            event = self.at(key, place, lambda event: event.what == "raise" and event.clock == stamp)
            self.need(stamp >= history.clocks[before[key]], f"stamp {stamp} below the clock of {colour}")
            if event is None:
                self.need(history.clocks[self.seen[key]] >= stamp, f"{colour} was not raised to {stamp}")
            upto = self.seen[key] - (event is not None)
            reached = reached or stamp in history.clocks[before[key] : upto + 1]
        self.need(reached, f"stamp {stamp} is no clock")
        self.take_syncs(colours)
        for colour in colours:
            events = self.seen[self.region, colour]
            self.need(all(opened > stamp for opened in self.own[colour].open_at[events]), f"{colour} has an open entry up to {stamp}")
        self.floor = max(self.floor, stamp)

    # --- Replies.

    def look(self):
        word, first = self.command.word, self.answer.words[0]
        home = self.object_of()[1] if self.object_of() else None
        away = home is not None and home != self.region
        if word == "commit":
            self.last_read = self.reads.pop(self.command.fields[0])
            self.judge.folds.read_of[self.command.number] = self.command.fields[0], *self.last_read
        if word == "read":
            self.reads[self.command.fields[0]] = self.command.fields[1:], None
        self.need((first == "nothome") == away, "whether it is at home")
        if away:
            self.answer.next("nothome")
            self.answer.next(home)
        elif first in ("nomemory", "stampend", "full", "trimmed", "unread", "notx", "sameregion", "moved"):
            getattr(self, f"look_at_{first}")()
        else:
            self.need(word != "commit" or self.last_read[1] is not None, "a commit behind a refused read")
            getattr(self, f"look_at_{word}", self.look_at_append)()
        self.answer.end()

    def hide(self, kinds):
        self.judge.hidden.append((self.command.number, self.client, kinds))

    def hide_reading(self, colours):
        """A refused read may have played each of its colours, up to the cut after some number of events, and raised it."""
        for colour in colours:
            key = (self.region, colour)
            self.starts[colour] |= set(self.own[colour].cuts[self.seen[key] :])
        if self.command.word in STAMPED:
            self.hide({("raise", self.region, colour) for colour in colours})
            self.maybe_floors |= {clock for colour in colours for clock in self.own[colour].clocks[self.seen[self.region, colour] :]}

    def look_at_nomemory(self):
        self.answer.next("nomemory")
        word = self.command.word
        if word in APPENDS and len(self.append_colours()) > 1 and self.next_row < len(self.rows):
            row = self.rows[self.next_row]
            if row.outcome == "gone memory" and list(row.marks) == self.append_colours():
                self.next_row += 1
                self.make(row.id)
                for colour in row.marks:
                    self.need(row.id not in self.own[colour].entries, f"{row.id} is gone, and is in {colour}")
        if word in READS:
            self.hide_reading(self.read_colours())
        if word == "pull":
            self.hide({("give", *self.command.fields)})

    def look_at_stampend(self):
        self.answer.next("stampend")
        self.need(self.command.word in APPENDS and self.command.word != "decide", "it can't end so")
        colours = self.append_colours()
        colour = self.answer.next(NAME)
        self.need(colour in colours, f"colour {colour}")
        if len(colours) > 1:
            self.take_row(self.next_row)
            row = self.rows[self.next_row - 1]
            ended = [colour for colour, mark in row.marks.items() if mark == "stampend"]
            self.need(row.outcome == "gone stampend" and ended[0] == colour, f"row {row.name}")
            self.make(row.id)
        else:
            self.need_end(colour)

    def need_end(self, colour):
        self.need(max([self.own[colour].clocks[-1], *self.floors()]) == END, f"the stamps of {colour} have not ended")

    def look_at_full(self):
        used = self.answer.number_behind("full")
        unsaid = 256 if self.script.lines[0] == "fuzzylog 2" else 4096
        rows = next((int(line.split(" ")[1]) for line in self.script.lines[: self.script.begin] if line.startswith("rows ")), unsaid)
        self.need(self.command.word in APPENDS and len(self.append_colours()) > 1 and used == rows == self.next_row, "not full")

    def look_at_trimmed(self):
        self.answer.next("trimmed")
        self.need(self.command.word in ("sync", *READS), "it can't be trimmed")
        self.take_trimmed()
        if self.command.word != "sync":
            self.hide_reading(self.read_colours())

    def take_trimmed(self):
        colour = self.answer.next(NAME)
        base = tuple(reports.numbers(self.answer.next(COUNTS)))
        self.need(colour in self.read_colours(), f"colour {colour}")
        history, seen = self.own[colour], self.seen[self.region, colour]
        self.need(base in history.bases[seen:] and any(not at_most(base, start) for start in self.starts[colour]), f"{colour} was not trimmed to {base}")

    def look_at_unread(self):
        stamp = self.answer.number_behind("unread")
        self.need(self.command.word in UNREAD, "it reads nothing behind an append")
        colours = self.append_colours()
        id = self.own[colours[0]].stamped(stamp, self.client)
        self.need(id, f"no node of the client under {stamp}")
        if len(colours) > 1:
            self.take_row(self.next_row)
            self.need(self.rows[self.next_row - 1].id == id, f"row {self.next_row - 1} is not of {id}")
        self.make(id)
        self.stand(id, colours, stamp)
        if self.answer.next("trimmed|nomemory") == "trimmed":
            self.take_trimmed()
        self.hide({("single", self.region, colours[0])} if len(colours) == 1 else set())
        self.hide_reading(self.read_colours())

    def look_at_notx(self):
        self.answer.next("notx")
        self.need(self.command.word == "commit" and self.last_read[1] is None, "its read was not refused")

    def look_at_sameregion(self):
        self.answer.next("sameregion")
        self.need(self.command.word == "pull" and self.command.fields[0] == self.region, "another region")

    def look_at_append(self):
        stamp = self.answer.number_behind("ok")
        colours = self.append_colours()
        row = self.answer.number_behind("row") if len(colours) > 1 else None
        self.take_points(colours, stamp, row)

    def look_at_only(self):
        """Right before its event no entry was open, and the line was as long as the client had played."""
        stamp = self.answer.number_behind("ok")
        (colour,) = self.append_colours()
        place = self.answer.words[0].split("@")[0].split("!")[-1]
        position = int(self.answer.words[0].split("@")[-1])
        self.take_points([colour], stamp, None)
        history = self.own[colour]
        event = history.events[int(place)]
        self.need(not history.open_at[event.place], f"{event.id} enters {colour} behind an open entry")
        length = history.chains_held[event.place][history.own]
        self.need(position == length == event.wants[history.own], f"{event.id} enters {colour} behind {length} nodes")

    def look_at_moved(self):
        length = self.answer.number_behind("moved")
        opened = int(self.answer.next(r"\d+"))
        self.need(self.command.word == "only", "it can't be moved")
        (colour,) = self.append_colours()
        look = self.answer.next(rf"{colour}(\?\d+)")[0]
        self.at((self.region, colour), look, None)
        history, events = self.own[colour], int(look[1:])
        found = history.chains_held[events][history.own], len(history.open_at[events])
        self.need(found == (length, opened), f"{colour} after {events} events: {found[0]} nodes, {found[1]} open")
        if not opened:
            self.starts[colour] = {start for start in self.starts[colour] if start[history.own] != length}
        self.need(self.starts[colour], f"{colour} had not moved")

    def look_at_stop(self):
        steps, colours = self.answer.number_behind("stopped"), self.append_colours()
        self.need(steps == int(self.command.fields[0]), f"stopped {steps}")
        if steps == 0:
            return
        self.take_row(self.next_row)
        row = self.rows[self.next_row - 1]
        self.make(row.id)
        marked, settled = colours[: steps - 1], colours[: max(0, steps - len(colours) - 2)]
        self.need(all(row.marks[colour] != "-" for colour in marked), f"row {row.name} lacks a mark")
        self.need(steps < len(colours) + 2 or row.outcome != "open", f"row {row.name} is open")
        for colour, history in self.own.items():
            self.need(colour not in settled or not history.entries.get(row.id, [0, False])[1], f"{row.id} is open in {colour}")
            for event in history.events:
                if event.id == row.id and event.client == self.client:
                    self.need(colour in (marked if event.what == "propose" else settled), f"it went on in {colour}")

    def look_at_sync(self):
        self.answer.next("ok")
        (colour,) = self.read_colours()
        self.take_syncs([colour])
        plays = self.answer.number_behind("plays")
        nodes = [(id, stamp) for id, stamp, _ in self.reply.nodes]
        (counts,) = self.starts[colour]
        self.need(plays == len(nodes) and any(self.own[colour].order(start, counts) == nodes for start in self.starts_before), f"it plays {nodes}")
        self.look_at_texts()

    def look_at_texts(self):
        """Once all is read: each node's text is that of the command that appended it."""
        number, nodes = self.command.number, self.reply.nodes
        self.judge.later.append(lambda: [self.look_at_text(number, *node) for node in nodes])

    def look_at_text(self, number, id, stamp, text):
        need(text == self.judge.folds.text(id), f"line {number}: {id} has the text {text}")

    def compare(self, found, wanted):
        """Once all is read: an object's answer is that of the fold."""
        number = self.command.number
        self.judge.later.append(lambda: need(found == wanted(), f"line {number}: it answers {found}, and by the fold {wanted()}"))

    def look_at_scan(self):
        stamp = self.answer.number_behind("ok")
        count = self.answer.number_behind("nodes")
        colours = self.read_colours()
        self.take_stamped(stamp, colours)
        keyed = {self.own[c].key(*node[:2]): node[:2] for c in colours for node in self.own[c].chains[self.own[c].own] if node[1] <= stamp}
        nodes = [(id, of) for id, of, _ in self.reply.nodes]
        self.need(count == len(nodes) and nodes == [keyed[key] for key in sorted(keyed)], f"it reads {nodes}")
        self.look_at_texts()

    def look_at_getall(self):
        stamp = self.answer.number_behind("ok")
        keys, region, folds = self.command.fields[1:], self.region, self.judge.folds
        found = {key: self.answer.next(rf"{key}=(-|{WORD})")[0] for key in keys}
        self.take_stamped(stamp, self.read_colours())
        if self.command.word == "getall":
            shards = {key: self.shard(key) for key in keys}
            below = lambda colour: [node for node in folds.line(region, colour) if node[1] <= stamp]
            self.compare(found, lambda: {key: folds.value(below(shards[key]), key) or "-" for key in keys})
        else:
            name = self.command.fields[0]
            self.reads[name] = keys, stamp
            self.compare(found, lambda: {key: folds.transactions(name, stamp)[0].get(key, "-") for key in keys})

    look_at_read = look_at_getall

    def look_at_get(self):
        kind, key, folds = self.object_of()[0], self.command.fields[1], self.judge.folds
        found = self.answer.next("ok|none")
        if found == "ok":
            found = self.answer.next(WORD if kind == "map" else f"{WORD}(?:,{WORD})*")
        (colour,) = self.read_colours()
        self.take_syncs([colour])
        (counts,) = self.starts[colour]
        history = self.own[colour]
        if kind == "map":
            self.compare(found, lambda: folds.value(history.chains[history.own][: counts[history.own]], key) or "none")
        else:
            self.compare(found, lambda: ",".join(folds.written(history, counts, key)) or "none")

    def look_at_deq(self):
        found = self.answer.next("ok|none")
        if found == "ok":
            found = self.answer.next(WORD)
        (colour,) = self.append_colours()
        position = int(self.answer.words[0].split("@")[-1])
        self.take_points([colour], self.stamp_of_point(colour), None)
        self.take_syncs([colour])
        line = self.own[colour].chains[self.own[colour].own][: position + 1]
        self.compare(found, lambda: self.judge.folds.taken(line) or "none")

    def look_at_commit(self):
        verdict = self.answer.next("committed|conflict")
        if verdict == "conflict":
            verdict += " " + self.answer.next(WORD)
        verdict += " " + self.answer.next(r"\d+")
        colours = self.append_colours()
        row = self.answer.number_behind("row") if len(colours) > 1 else None
        stamp = self.stamp_of_point(colours[0])
        self.take_points(colours, stamp, row)
        read_stamp = self.answer.number_behind("at")
        self.take_stamped(read_stamp, self.read_colours())
        name, id = self.command.fields[0], self.own[colours[0]].stamped(stamp, self.client)
        self.compare(verdict, lambda: self.judge.folds.transactions(name, read_stamp)[2].get(id))

    def look_at_peek(self):
        name, key = self.command.fields
        found = self.answer.next("ok|none|undecided")
        if found == "ok":
            found = self.answer.next(WORD)
        elif found == "undecided":
            found += " " + self.answer.next(r"\d+")
        colour, count = self.take_part()
        self.compare(found, lambda: self.judge.folds.peeked(name, colour, count, key))

    def look_at_decide(self):
        """A sync of the key's colour; and where a transaction is not decided there, a stamped read of all colours, and then the append."""
        name, folds = self.command.fields[0], self.judge.folds
        found = self.answer.next("none|committed|conflict")
        if found == "none":
            colour, count = self.take_part()
            self.compare(None, lambda: folds.part(name, colour, count)[1])
            return
        verdict = f"{found} {self.answer.next('[0-9]+')}"
        colour, count = self.take_part()
        stamp = self.answer.number_behind("at")
        self.take_stamped(stamp, self.read_colours())
        ended = self.answer.next("ok|stampend|nomemory")
        if ended == "ok":
            folds.decision_of[self.command.number] = name, colour, count, found == "committed"
            self.take_points([colour], int(self.answer.next(r"\d+")), None)
        elif ended == "stampend":
            self.need(self.answer.next(NAME) == colour, f"an append to {colour}")
            self.need_end(colour)
        self.compare(verdict, lambda: folds.decided(name, colour, count, stamp))

    def take_part(self):
        """The sync of the one colour of a command's key: that colour, and how much of its own line was synced."""
        (colour,) = [self.shard(self.command.fields[1])]
        self.take_syncs([colour])
        (counts,) = self.starts[colour]
        return colour, counts[self.own[colour].own]

    def look_at_mk(self):
        told = self.answer.next("done|failed")
        if told == "failed":
            told += " " + self.answer.next("exists|noparent|missing|notempty|inside|deep")
        stamp = int(self.answer.next(r"\d+"))
        colours = self.append_colours()
        row = self.answer.number_behind("row") if len(colours) > 1 else None
        self.take_points(colours, stamp, row)
        read_stamp = self.answer.number_behind("at")
        self.take_stamped(read_stamp, self.read_colours())
        name, id = self.command.fields[0], self.own[colours[0]].stamped(stamp, self.client)
        self.compare(f"{told} {stamp}", lambda: self.judge.folds.tree(name, read_stamp)[1].get(id))

    look_at_rm = look_at_mv = look_at_mk

    def look_at_ls(self):
        names = self.answer.next("ok|missing")
        stamp = int(self.answer.next(r"\d+"))
        if names == "ok":
            names = self.answer.next(r"-|[a-z0-9]{1,8}(?:,[a-z0-9]{1,8})*")
        self.take_stamped(stamp, self.read_colours())
        name, path = self.command.fields
        self.compare(names, lambda: self.judge.folds.names(name, path, stamp))

    def stamp_of_point(self, colour):
        """The stamp of the own node, in the line at the position that the next point prints."""
        position = int(self.answer.words[0].split("@")[-1])
        line = self.own[colour].chains[self.own[colour].own]
        self.need(position < len(line), f"no node at {position} of {colour}")
        return line[position][1]

    def look_at_pull(self):
        nodes = int(self.answer.number_behind("ok"))
        region, colour = self.command.fields
        self.need(region != self.region, "a pull from its own region")
        far, near = (region, colour), (self.region, colour)
        origin, history = self.judge.histories[far], self.own[colour]
        other = self.script.regions.index(region)
        before = self.seen[near]
        self.answer.next("give")
        place = self.answer.next(r"!\d+")
        give = self.at(far, place, lambda event: event.what == "give" and event.region == self.region)
        length = origin.chains_held[give.place + 1][origin.own]
        self.answer.next("carry")
        place = self.answer.next(r"[!?]\d+")
        carry = self.at(near, place, lambda event: event.what == "carry" and event.region == region)
        asked = {min(length, held[other]) for held in history.chains_held[before : int(place[1:]) + 1]}
        self.need(give.start in asked, f"a give from {give.start}")
        self.need(nodes == (len(carry.carried) if carry else 0), f"{nodes} nodes")
        self.need(history.chains_held[self.seen[near]][other] >= length, "it does not hold the line that was given")

    def look_at_trim(self):
        self.answer.next("ok")
        (colour,) = self.command.fields
        key, history = (self.region, colour), self.own[colour]
        event = self.at(key, self.answer.next(r"!\d+"), lambda event: event.what == "trim" and tuple(event.below) in self.starts[colour])
        self.starts[colour] = {tuple(event.below)}
        self.answer.next("base")
        self.need(tuple(reports.numbers(self.answer.next(COUNTS))) == history.bases[event.place + 1], "another base")


def fault(script, text):
    """Why a report is none of the script's runs, or None."""
    try:
        Judge(script, text)
    except Fault as found:
        return str(found)
    except (ValueError, KeyError, IndexError, AttributeError, TypeError) as broken:
        return f"it can't be read: {broken!r}"
    return None
