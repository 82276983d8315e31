"""audit: the time of `tango audit` over long transcripts of legal runs.

    python3 bench/audit.py crates/tango/out/tango

For few and for many clients it makes transcripts of 50,000, 100,000 and 200,000 lines and prints the processor time that
each takes, the least of three runs, and its ratio to that of half as many lines. It ends with the status 1 where one isn't
told to be legal.

    python3 bench/audit.py write LINES CLIENTS START > FILE

writes such a transcript alone. The run is made by a plain store: transactions of the clients go on side by side, each
asks at the snapshot of its first ask, a record takes the next position at its end, and aborts where a part that it read
was written in between; its reply comes later."""
import random
import resource
import subprocess
import sys


class Store:
    """Versions of parts: for each object its writes, as (position, key or None, value)."""

    def __init__(self, names):
        self.writes = {name: [] for name in names}

    def put(self, name, position, key, value):
        self.writes[name].append((position, key, value))

    def before(self, name, position):
        """How many writes of an object are below a position."""
        low, high = 0, len(self.writes[name])
        while low < high:
            middle = (low + high) // 2
            if self.writes[name][middle][0] < position:
                low = middle + 1
            else:
                high = middle
        return low

    def last(self, name, key, position):
        """The last write below a position that changes a part: that of a key, or the whole."""
        writes = self.writes[name]
        for place in range(self.before(name, position) - 1, -1, -1):
            if key is None or writes[place][1] == key:
                return writes[place]
        return None


def transcript(lines, clients, start):
    """The lines of a legal run's transcript, about so many."""
    chance = random.Random(start)
    names = [f"ctr{i}" for i in range(6)] + [f"reg{i}" for i in range(6)] + [f"map{i}" for i in range(4)]
    store = Store(names)
    replies, history, committed = [], [], set()
    numbers = [0] * clients
    opened = [None] * clients
    replied = [[] for _ in range(clients)]
    event, end = 0, 0
    while len(replies) + len(history) < lines - 2:
        event += 1
        client = chance.randrange(clients)
        if replied[client]:
            number, text = replied[client].pop(0)
            replies.append(f"{event} c{client} {number} {text}")
            continue
        if chance.random() < 0.02 and end:
            position = chance.randrange(end)
            replies.append(f"{event} c{client} 0 fate {position} {'yes' if position in committed else 'no'}")
            continue
        if opened[client] is None:
            numbers[client] += 1
            opened[client] = {"at": None, "asks": [], "puts": []}
            replies.append(f"{event} c{client} {numbers[client]} begin")
            continue
        one, number, choice = opened[client], numbers[client], chance.random()
        if choice < 0.4:
            name = chance.choice(names)
            if one["at"] is None:
                one["at"] = end
            key = f"k{chance.randrange(20)}" if name.startswith("map") else None
            last = store.last(name, key, one["at"])
            if name.startswith("ctr"):
                words, answer = "value", str(last[2] if last else 0)
            else:
                words, answer = (f"get {key}" if key else "text"), (f"some {last[2]}" if last else "none")
            one["asks"].append((name, key))
            replies.append(f"{event} c{client} {number} asked {name} {words} at {one['at']} = {answer}")
        elif choice < 0.7:
            name = chance.choice(names)
            key, value = None, f"v{chance.randrange(1000)}"
            if name.startswith("ctr"):
                value = str(chance.randrange(1, 100))
                words = f"add {value}"
            elif name.startswith("reg"):
                words = f"write {value}"
            else:
                key = f"k{chance.randrange(20)}"
                words = f"set {key} {value}"
            one["puts"].append((name, key, value, words))
            replies.append(f"{event} c{client} {number} put {name} {words}")
        else:
            opened[client] = None
            replies.append(f"{event} c{client} {number} end")
            if not one["puts"]:
                replied[client].append((number, f"committed {one['at'] or 0}"))
                continue
            position, end = end, end + 1
            why = None
            for name, key in one["asks"]:
                seen, now = store.last(name, key, one["at"]), store.last(name, key, position)
                if seen is not now:
                    part = "all" if key is None else f"key {key}"
                    why = f"aborted {position} {name} {part} seen {seen[0] + 1 if seen else 0} now {now[0] + 1}"
                    break
            if why:
                replied[client].append((number, why))
                continue
            for name, key, value, words in one["puts"]:
                if name.startswith("ctr"):
                    last = store.last(name, None, position + 1)
                    value = (last[2] if last else 0) + int(value)
                store.put(name, position, key, value)
            committed.add(position)
            writes = " ; ".join(f"{put[0]} {put[3]}" for put in one["puts"])
            history.append(f"{position} c{client} {number} {writes}")
            unsure = chance.random() < 0.02
            outcome = f"unsure {position} {max(position - 1, 0)}" if unsure else f"committed {position}"
            replied[client].append((number, outcome))
    return ["objects " + " ".join(names), *replies, f"history {len(history)}", *history]


def seconds(program, text):
    """The least processor time of three audits, and what the last one says."""
    best = float("inf")
    for _ in range(3):
        before = resource.getrusage(resource.RUSAGE_CHILDREN).ru_utime
        run = subprocess.run([*program, "audit"], input=text.encode(), capture_output=True)
        best = min(best, resource.getrusage(resource.RUSAGE_CHILDREN).ru_utime - before)
    return best, run.stdout.decode().strip()


def main():
    if sys.argv[1] == "write":
        lines, clients, start = map(int, sys.argv[2:5])
        print("\n".join(transcript(lines, clients, start)))
        return
    wrong = False
    for clients in (4, 32):
        earlier = None
        for lines in (50000, 100000, 200000):
            text = "\n".join(transcript(lines, clients, 1)) + "\n"
            spent, said = seconds(sys.argv[1:], text)
            ratio = f", {spent / earlier:.2f} times half of it" if earlier else ""
            print(f"{clients} clients, {lines} lines: {spent:.3f} s{ratio}, {said}", flush=True)
            earlier, wrong = spent, wrong or said != "legal"
    sys.exit(wrong)


main()
