#!/usr/bin/env python3
"""cluster.py PROGRAM [HEADER]: starts a cluster of single nodes on this machine, and runs a client on it.

    python3 examples/cluster.py crates/tango/out/tango

HEADER is a file with a script's three lines, examples/cluster.header where none is given. Each unit, layout server and
sequencer that it declares is a process of its own, `PROGRAM node ID`, and so is the client c0. Their packets go over UDP on 127.0.0.1, where each node has a port of its own from 42000 on. A node does nothing by
itself: it reads lines, and each `wait N` lets it look N times for a datagram. So this script feeds each node such lines,
gives the client its commands one after the other, and a `tick` where an answer takes long, as a packet may be lost. It prints
what the client writes, and ends with 0 where every node ended so.
"""

import os
import subprocess
import sys
import time

HEADER = os.path.join(os.path.dirname(os.path.abspath(__file__)), "cluster.header")
COMMANDS = [
    "c0 host ctr0",
    "c0 host map0",
    "c0 update ctr0 add 5",
    "c0 update map0 set colour green",
    "c0 begin",
    "c0 ask ctr0 value",
    "c0 ask map0 get colour",
    "c0 put ctr0 add 37",
    "c0 end",
]
# A command is answered by the first line with one of these words.
ANSWERS = {
    "host": ["hosted"],
    "begin": ["begin"],
    "put": ["put"],
    "ask": ["asked"],
    "end": ["committed", "aborted", "unsure"],
    "update": ["committed", "aborted", "unsure"],
}
LONGEST = 20.0


class Node:
    def __init__(self, program, name, header):
        self.name, self.said = name, b""
        self.process = subprocess.Popen([program, "node", name], stdin=subprocess.PIPE, stdout=subprocess.PIPE, bufsize=0)
        os.set_blocking(self.process.stdout.fileno(), False)
        self.tell(header)

    def tell(self, text):
        try:
            self.process.stdin.write(text.encode())
        except BrokenPipeError:
            sys.exit(f"{self.name} has ended with status {self.process.wait()}")

    def lines(self):
        """The whole lines that it has written since the last time."""
        self.said += self.process.stdout.read() or b""
        *whole, self.said = self.said.split(b"\n")
        return [it.decode() for it in whole]


def servers_of(header):
    """The names of the units, layout servers and sequencers that a header declares."""
    words = header.split("\n")[0].split()
    counts = dict(zip(words[1::2], words[2::2]))
    return [f"{role[0]}{it}" for role in ("units", "layouts", "seqs") for it in range(int(counts[role]))]


def main():
    program, *files = sys.argv[1:]
    with open(files[0] if files else HEADER) as it:
        header = it.read()
    servers = [Node(program, name, header) for name in servers_of(header)]
    client = Node(program, "c0", header)
    nodes = [*servers, client]
    try:
        for command in COMMANDS:
            print(f"> {command}")
            client.tell(f"{command}\n")
            words, begun, ticked = ANSWERS[command.split()[1]] + ["refused"], time.time(), time.time()
            answered = False
            while not answered:
                for node in nodes:
                    node.tell("wait 200\n")
                time.sleep(0.01)
                for line in client.lines():
                    print(f"  {line}")
                    answered = answered or line.split()[3] in words
                if time.time() - ticked > 0.5:
                    client.tell("tick\n")
                    ticked = time.time()
                if time.time() - begun > LONGEST:
                    sys.exit(f"no answer to {command}")
    finally:
        for node in nodes:
            node.process.stdin.close()
        for node in nodes:
            try:
                node.process.wait(10)
            except subprocess.TimeoutExpired:
                node.process.kill()
    statuses = {node.name: node.process.returncode for node in nodes}
    print(f"statuses: {statuses}")
    sys.exit(any(statuses.values()))


if __name__ == "__main__":
    main()
