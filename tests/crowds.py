"""Scripts that are made: those of `cuckoo make`, by crates/ck_cli/README.md, and those of many
commands for several workers.
"""
import random

HEAD = "cuckoo 2\nturns 4294967295\n"


def rotated(word, by):
    return (word >> by | word << 32 - by) & 0xFFFFFFFF


def words_of(seed):
    """The generator of `make`: PCG XSH RR 64/32 on stream 54."""
    factor, step, whole = 6364136223846793005, 109, 2**64
    state = ((seed + step) * factor + step) % whole
    while True:
        yield rotated(((state >> 18 ^ state) >> 27) & 0xFFFFFFFF, state >> 59)
        state = (state * factor + step) % whole


def made(seed, workers, lines):
    """The script that `make` prints."""
    words = words_of(seed)
    text = ["cuckoo 1" if workers <= 256 else "cuckoo 2"]
    for _ in range(workers):
        text.append("worker")
        text += ["add %d %d" % (next(words) % 64, next(words) % 1000) for _ in range(lines)]
    return "\n".join(text + ["end", ""])


def script(settings, blocks):
    text = [HEAD + "".join(setting + "\n" for setting in settings)]
    for block in blocks:
        text.append("worker\n" + "".join(line + "\n" for line in block))
    return "".join(text + ["end\n"])


def scattered(index):
    """The key of an index; no two have the same."""
    x = index * 0x9E3779B97F4A7C15 % 2**64
    x = (x ^ x >> 30) * 0xBF58476D1CE4E5B9 % 2**64
    x = (x ^ x >> 27) * 0x94D049BB133111EB % 2**64
    return x ^ x >> 31


def bind(workers, lines):
    """All bind the same keys."""
    return script(["s 2", "power 4"], [
        ["insert %d %d" % (key, worker * lines + key + 1) for key in range(lines)]
        for worker in range(workers)])


def add(workers, lines):
    """All add to three keys in turn."""
    return script(["s 2", "power 4"], [
        ["add %d %d" % ((worker + at) % 3, at % 7 + 1) for at in range(lines)]
        for worker in range(workers)])


def renew(workers, lines):
    """All bind and erase three keys."""
    def line(worker, at):
        key = (worker + at) % 3
        return "erase %d" % key if at % 2 else "insert %d %d" % (key, worker * lines + at + 1)
    return script(["s 2", "power 4"], [
        [line(worker, at) for at in range(lines)] for worker in range(workers)])


def assign(workers, lines):
    """All bind one key again and again, each time to another number."""
    return script(["s 2", "power 4"], [
        ["assign 0 %d" % (worker * lines + at + 1) for at in range(lines)]
        for worker in range(workers)])


def transfer(workers, lines):
    """All bind three keys and move numbers between them."""
    def line(worker, at):
        source, target = (worker + at) % 3, (worker + at + 1 + at % 2) % 3
        return "move %d %d %d" % (source, target, at % 5)
    block = ["insert %d 1000" % key for key in range(3)]
    return script(["s 2", "power 4"], [
        block + [line(worker, at) for at in range(lines)] for worker in range(workers)])


def sessions(workers, lines):
    """The first two bind ten keys and move numbers between them, ten times as often as the third
    counts the keys and the others list them.
    """
    def line(worker, at):
        if worker < 2:
            return "move %d %d 1" % (at % 10, (at // 10 % 9 + at + 1) % 10)
        return "len" if worker == 2 else "list"
    block = ["insert %d 100" % key for key in range(10)]
    return script(["s 2", "power 4"], [
        block + [line(worker, at) for at in range(10 * lines)] if worker < 2
        else [line(worker, at) for at in range(lines)]
        for worker in range(workers)])


def own_keys(worker, lines, other):
    """Binds keys of its own, changes and erases them, and binds them again, and looks for those
    of another.
    """
    for at in range(lines):
        index = worker * lines + at
        key = scattered(index)
        yield "insert %d %d" % (key, index)
        yield "add %d 1" % key
        yield ("erase %d" if index % 4 == 0 else "find %d") % key
        yield "assign %d %d" % (key, index)
        yield "has %d" % scattered(other * lines + at)


def fill(workers, lines):
    """Own keys, in nine slots of ten of a table that may not grow."""
    power = (workers * lines * 10 // 9 // 4).bit_length()
    return script(["s 4", "power %d" % power, "max %d" % power, "rounds 64"], [
        own_keys(worker, lines, (worker + 1) % workers) for worker in range(workers)])


def grow(workers, lines):
    """The same in a table of four buckets, which has to grow."""
    return script(["s 2"], [
        own_keys(worker, lines, (worker + 1) % workers) for worker in range(workers)])


def wide(workers, lines):
    """The same in a table of as many stripes as there may be, which has to grow."""
    return script(["s 10", "power 10"], [
        own_keys(worker, lines, (worker + 1) % workers) for worker in range(workers)])


def listing(workers, lines):
    """The first binds keys of its own in a table that has to grow, while the others list it and
    count its keys.
    """
    block = [["insert %d %d" % (scattered(at), at) for at in range(lines)]]
    return script(["s 2"], block + [
        ["len" if at % 16 else "list" for at in range(lines // 8)] for _ in range(workers - 1)])


def lists(workers, lines):
    """Each binds keys of its own, and lists the table then."""
    return script(["s 2"], [
        ["insert %d %d" % (scattered(worker * lines + at), at) for at in range(lines)] + ["list"]
        for worker in range(workers)])


def busy_block(first, lines, binders, bound):
    """Changes four keys of its own, and looks for those that others bind."""
    yield from ("insert %d 100" % (first + own) for own in range(4))
    for at in range(lines):
        yield ["add %d 1" % first, "erase %d" % (first + 1), "insert %d 100" % (first + 1),
               "move %d %d 1" % (first + 2, first + 3),
               "move %d %d 1" % (first + 3, first + 2)][at % 5]
        yield "find %d" % scattered(at * 7919 % (binders * bound) + 1000)


def crowd(workers, lines):
    """All but two bind keys of their own, from four buckets on, and the last two change theirs
    and look for the others'.
    """
    binders = workers - 2
    blocks = [["insert %d %d" % (scattered(index + 1000), index)
               for index in range(worker * lines, (worker + 1) * lines)]
              for worker in range(binders)]
    blocks += [busy_block(first, min(lines, 20000), binders, lines) for first in (0, 4)]
    return script(["s 2"], blocks)


def rows_of(seed, lines, keys):
    """A worker's random commands of each kind, on so many keys, of which one in 64 has the same
    two buckets as the others of its kind at each power.
    """
    pick = random.Random(seed)
    for _ in range(lines):
        key, other = pick.sample(range(keys), 2)
        key = key // 64 * 282574488338432 if key % 64 == 0 else key
        number = pick.choice([0, 1, pick.getrandbits(10), pick.getrandbits(64)])
        yield pick.choices([
            "find %d" % key, "has %d" % key,
            "insert %d %d" % (key, number), "assign %d %d" % (key, number),
            "update %d %d" % (key, number), "add %d %d" % (key, number), "erase %d" % key,
            "move %d %d %d" % (key, other, number) if key != other else "len", "len", "list",
        ], [10, 5, 20, 10, 5, 10, 10, 10, 3, 0.1])[0]


def mixed(seed, lines):
    """One worker with random commands."""
    return script(["s 1", "power 1"], [rows_of(seed, lines, 400)])


CROWDS = {crowd.__name__: crowd for crowd in
          (bind, add, renew, assign, transfer, sessions, fill, grow, wide, listing, lists, crowd,
           mixed)}
