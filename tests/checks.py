"""What every output of a script has, recomputed from the script's own lines.

A script of several workers has no single output. Its row names checks, each a function here that
is given a `Run` and yields what is wrong: the words of the commands with their answers, and the
pairs behind the line `map`.
"""

MOST = 2**64 - 1

# What a command is answered where it is not refused: the first word of the answer.
ANSWERS = {
    "find": {"v", "none"}, "has": {"yes", "no"}, "insert": {"new", "old"},
    "assign": {"new", "set"}, "update": {"set", "none"}, "add": {"new", "set"},
    "erase": {"gone", "none"}, "move": {"set", "none"}, "len": {"len"}, "list": {"list"},
}


class Bad(Exception):
    """An output that is not of the form of one."""


class Done:
    """A command with its answer; `listed` has the pairs that a list has."""

    __slots__ = ("worker", "words", "answer", "listed", "kind", "reply", "keys")

    def __init__(self, worker, words, answer, listed):
        self.worker, self.words, self.answer, self.listed = worker, words, answer, listed
        self.kind, self.reply = words[0], answer.partition(" ")[0]
        self.keys = words[1:3] if self.kind == "move" else words[1:2]

    def amount(self):
        return int(self.words[-1])

    def __str__(self):
        return "worker %d: `%s` answered `%s`" % (self.worker, " ".join(self.words), self.answer)


class Run:
    """A script with its output."""

    def __init__(self, script, output):
        self.is_text = "keys text" in script.split("worker\n")[0]
        lines = iter(output.split("\n"))
        if not output.endswith("\n"):
            raise Bad("the last line has no end")
        self.done = list(self._answers(script, lines))
        expect(lines, "map")
        self.map = pairs_of(list(lines)[:-1])
        self.of_keys = self._of_keys()

    def _answers(self, script, lines):
        worker = 0
        for line in script.split("\n"):
            words = line.split(" ")
            if words == ["worker"]:
                worker += 1
                expect(lines, "worker %d" % worker)
            elif worker and words[0] in ANSWERS:
                answer = next(lines, "")
                count = int(answer[5:]) if answer.startswith("list ") else 0
                listed = pairs_of([next(lines, "") for _ in range(count)]) if count else []
                yield Done(worker, words, answer, listed)

    def _of_keys(self):
        """The commands of each key that they name, in the order of the workers."""
        commands = {}
        for done in self.done:
            for key in done.keys:
                commands.setdefault(key, []).append(done)
        return commands

    def rank(self, key):
        return key.encode() if self.is_text else int(key)


def expect(lines, want):
    line = next(lines, "")
    if line != want:
        raise Bad("`%s` where `%s` has to stand" % (line, want))


def pairs_of(lines):
    pairs = []
    for line in lines:
        words = line.split(" ")
        if len(words) != 2:
            raise Bad("`%s` where a pair has to stand" % line)
        pairs.append((words[0], int(words[1])))
    return pairs


def form(run):
    """Each command has an answer of its kind, and none is refused; pairs are in rising order of
    their keys.
    """
    for done in run.done:
        if done.reply not in ANSWERS[done.kind]:
            yield str(done)
    for pairs in [run.map] + [done.listed for done in run.done if done.listed]:
        ranks = [run.rank(key) for key, _ in pairs]
        if any(low >= high for low, high in zip(ranks, ranks[1:])):
            yield "keys that do not rise: %s" % ranks[:20]


def next_value(kind, bound, amount):
    """What a command leaves a key bound to, and its answer, on a plain map."""
    if kind == "erase":
        return None, "none" if bound is None else "gone"
    if kind == "find":
        return bound, "none" if bound is None else "v %d" % bound
    if kind == "has":
        return bound, "no" if bound is None else "yes"
    if bound is None:
        return (None, "none") if kind == "update" else (amount, "new")
    if kind == "insert":
        return bound, "old"
    return (min(bound + amount, MOST) if kind == "add" else amount), "set"


def move(plain, done):
    """Moves on a plain map, and says the answer."""
    source, target = done.keys
    if source not in plain or target not in plain:
        return "none"
    moved = min(done.amount(), plain[source], MOST - plain[target])
    plain[source] -= moved
    plain[target] += moved
    return "set"


def answer_of(run, plain, done):
    """The answer on a plain map, and the pairs of a list."""
    if done.kind == "move":
        return move(plain, done), []
    if done.kind == "len":
        return "len %d" % len(plain), []
    if done.kind == "list":
        return "list %d" % len(plain), sorted(plain.items(), key=lambda pair: run.rank(pair[0]))
    key = done.words[1]
    amount = done.amount() if len(done.words) > 2 else 0
    value, answer = next_value(done.kind, plain.get(key), amount)
    plain.pop(key, None)
    if value is not None:
        plain[key] = value
    return answer, []


def alone(run):
    """A worker that is the only one to change a key is answered of it, and leaves it, as on a
    plain map. Where there is one worker, that holds of every command and of the whole end.
    """
    one = all(done.worker == 1 for done in run.done)
    changers = {key: {done.worker for done in commands if done.kind not in ("find", "has")}
                for key, commands in run.of_keys.items()}
    plain = {}
    for done in run.done:
        if one or done.keys and all(changers[key] <= {done.worker} for key in done.keys):
            want = answer_of(run, plain, done)
            if want != (done.answer, done.listed):
                yield "%s, not %s" % (done, want[0])
    end = dict(run.map)
    for key in set(end) | set(changers):
        if len(changers.get(key, ())) <= 1 and end.get(key) != plain.get(key):
            yield "key %s ends with %s, not %s" % (key, end.get(key), plain.get(key))


def of_kinds(run, kinds):
    """The keys of which all commands are of these kinds, with the commands."""
    for key, commands in run.of_keys.items():
        if all(done.kind in kinds for done in commands):
            yield key, commands


def sums(run):
    """A key that is only added to has one `new`, and ends with the sum of all that was added."""
    end, found = dict(run.map), 0
    for key, commands in of_kinds(run, {"add", "has"}):
        added = [done for done in commands if done.reply in ("new", "set")]
        fresh = sum(done.reply == "new" for done in added)
        total = sum(done.amount() for done in added)
        found += 1
        if fresh != 1 or end.get(key) != total:
            yield "key %s: %d new, %s at the end, %d added" % (key, fresh, end.get(key), total)
    if not found:
        yield "no key to which numbers are added"


def counts(run):
    """A key that is only inserted and erased is bound at the end where it was bound once more
    than it was erased, to a number with which an insertion bound it.
    """
    end, found = dict(run.map), 0
    for key, commands in of_kinds(run, {"insert", "erase", "has", "find"}):
        bound = [done.amount() for done in commands if done.reply == "new"]
        left = len(bound) - sum(done.reply == "gone" for done in commands)
        found += 1
        if not bound or left != (key in end) or left and end[key] not in bound:
            wrong = (key, len(bound), left, end.get(key))
            yield "key %s: %d times bound, %d left, %s at the end" % wrong
    if not found:
        yield "no key that is inserted"


def last(run):
    """A key that is only assigned to has one `new`, and ends with the last number of one of its
    workers.
    """
    end, found = dict(run.map), 0
    for key, commands in of_kinds(run, {"assign"}):
        lasts = {done.worker: done.amount() for done in commands}
        fresh = sum(done.reply == "new" for done in commands)
        found += 1
        if fresh != 1 or end.get(key) not in lasts.values():
            yield "key %s: %d new, %s at the end" % (key, fresh, end.get(key))
    if not found:
        yield "no key that is assigned to"


def funds(run):
    """Keys begin with one and the same number, and are only moved between: at the end, and in
    each list, they have that number each on the average. A worker that counts the keys finds no
    fewer than before.
    """
    amounts = {done.amount() for done in run.done if done.kind == "insert"}
    fund = amounts.pop() if len(amounts) == 1 else None
    for pairs in [run.map] + [done.listed for done in run.done]:
        if fund is None or sum(value for _, value in pairs) != fund * len(pairs):
            yield "a sum of %d for %d keys" % (sum(value for _, value in pairs), len(pairs))
    counted = {}
    for done in run.done:
        if done.kind in ("len", "list"):
            count = int(done.answer.split(" ")[1])
            if count < counted.get(done.worker, 0):
                yield str(done)
            counted[done.worker] = count
    if len({key for done in run.done for key in done.keys}) != len(run.map):
        yield "%d keys at the end" % len(run.map)


def seen(run):
    """A key that one worker inserts and nobody changes is found with its number by the others,
    if at all, and stays found.
    """
    found = {}
    for key, commands in of_kinds(run, {"insert", "find", "has"}):
        bound = [done for done in commands if done.reply == "new"]
        if len(bound) == 1:
            yield from stays_found(key, bound[0].amount(), commands, found)
    if not found:
        yield "no key of another worker was found"


def stays_found(key, value, commands, found):
    for done in commands:
        at = (key, done.worker)
        if done.kind == "find" and done.reply == "v":
            found[at] = True
            if done.answer != "v %d" % value:
                yield str(done)
        elif done.kind == "find" and at in found:
            yield "%s, which was found before" % done


def keys(run, count):
    """So many keys are bound at the end."""
    if len(run.map) != int(count):
        yield "%d keys at the end, not %s" % (len(run.map), count)


CHECKS = {
    "alone": alone, "sums": sums, "counts": counts, "last": last, "funds": funds, "seen": seen,
    "keys": keys,
}


def faults(script, output, names):
    """What is wrong with this output of the script, by these checks; the form is always one."""
    try:
        run = Run(script, output)
    except (Bad, ValueError) as bad:
        return ["the form of the output: %s" % bad]
    wrong = list(form(run))
    for name in names:
        word, *arguments = name.split(" ")
        wrong += ["%s: %s" % (name, fault) for fault in CHECKS[word](run, *arguments)]
    return wrong
