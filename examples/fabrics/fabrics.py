#!/usr/bin/env python3
"""Makes the documents of this folder. Change it to make a fabric of another size.

    fabrics.py              writes every document beside this script
    fabrics.py NAME [SIZE]  prints one, as `fabrics.py mesh_xy 4` or `fabrics.py ring 6`
"""
import inspect
import json
import os
import sys


class Fabric:
    """A net that is built primitive by primitive. Each call adds one and gives back its output channel, or both."""

    def __init__(self, colours, cycles=40):
        self.colours, self.net, self.cycles = colours, [], cycles

    def _add(self, kind, name, members):
        self.net.append({"kind": kind, "name": name, **members})

    def source(self, name, colours, mode="keep", out=None):
        out = out or f"{name}.out"
        members = {"out": out, "colours": colours}
        self._add("source", name, members if mode == "keep" else {**members, "mode": mode})
        return out

    def sink(self, name, into, mode="keep"):
        self._add("sink", name, {"in": into} if mode == "keep" else {"in": into, "mode": mode})

    def queue(self, name, into, capacity, initial=(), out=None):
        out = out or f"{name}.out"
        members = {"in": into, "out": out, "capacity": capacity}
        self._add("queue", name, {**members, "initial": list(initial)} if initial else members)
        return out

    def function(self, name, into, table):
        self._add("function", name, {"in": into, "out": f"{name}.out", "map": table})
        return f"{name}.out"

    def fork(self, name, into, map_a=None, map_b=None):
        members = {"in": into, "a": f"{name}.a", "b": f"{name}.b"}
        maps = {key: table for key, table in (("map_a", map_a), ("map_b", map_b)) if table}
        self._add("fork", name, {**members, **maps})
        return f"{name}.a", f"{name}.b"

    def join(self, name, a, b, passes="a"):
        self._add("join", name, {"a": a, "b": b, "out": f"{name}.out", "pass": passes})
        return f"{name}.out"

    def switch(self, name, into, to_a):
        self._add("switch", name, {"in": into, "a": f"{name}.a", "b": f"{name}.b", "to_a": list(to_a)})
        return f"{name}.a", f"{name}.b"

    def merge(self, name, a, b):
        self._add("merge", name, {"a": a, "b": b, "out": f"{name}.out"})
        return f"{name}.out"

    def merges(self, name, inputs):
        """One output of any number of inputs, by merges one behind the other."""
        out = inputs[0]
        for k, more in enumerate(inputs[1:]):
            out = self.merge(f"{name}{k}", out, more)
        return out

    def routed(self, name, into, ways):
        """The input, sent by the way whose colours name it: `ways` are pairs of a key and colours. The channel of each."""
        outputs = {}
        for k, (key, colours) in enumerate(ways[:-1]):
            outputs[key], into = self.switch(f"{name}{k}", into, colours)
        outputs[ways[-1][0]] = into
        return outputs

    def text(self):
        fair = any(p.get("mode") == "fair" for p in self.net)
        packets = any("initial" in p for p in self.net)
        lines = ",\n ".join(json.dumps(p, separators=(",", ":")) for p in self.net)
        colours = json.dumps(self.colours, separators=(",", ":"))
        version = 3 if fair else 2 if packets else 1
        tape = json.dumps({"cycles": self.cycles, "seed": 7}, separators=(",", ":"))
        return f'{{"version":{version},"colours":{colours},"net":[\n {lines}],\n "tape":{tape}}}\n'


def pipeline(depth=3):
    """Queues in a row."""
    f = Fabric(["req"])
    c = f.source("S", ["req"])
    for k in range(depth):
        c = f.queue(f"Q{k}", c, 2)
    f.sink("K", c)
    return f


def fork_join(depth=2):
    """Two pipelines between a fork and a join, one of them longer."""
    f = Fabric(["req"])
    a, b = f.fork("F", f.source("S", ["req"]))
    for k in range(depth):
        a = f.queue(f"A{k}", a, 2)
    b = f.queue("B", b, 2)
    f.sink("K", f.join("J", a, b))
    return f


def credits(tokens=2):
    """A sender that spends a credit for each packet, and a receiver that gives it back."""
    f = Fabric(["req", "credit"])
    spend = f.queue("Credits", "Return.b", tokens, ["credit"] * tokens)
    sent = f.join("Send", f.source("S", ["req"], "eager"), spend)
    taken, _ = f.fork("Return", f.queue("Buffer", sent, tokens), map_b={"req": "credit"})
    f.sink("K", taken)
    return f


def virtual_channels(tokens=2):
    """Two virtual channels over one link, each with a buffer and credits of its own."""
    kinds = ["req", "rsp"]
    f = Fabric(kinds + ["credit"])
    sent = []
    for kind in kinds:
        spend = f.queue(f"Credits_{kind}", f"Return_{kind}.b", tokens, ["credit"] * tokens)
        sent.append(f.join(f"Send_{kind}", f.source(f"S_{kind}", [kind], "fair"), spend))
    link = f.queue("Link", f.merge("Arbiter", sent[0], sent[1]), 2)
    for kind, arrived in zip(kinds, f.switch("Demux", link, ["req"])):
        buffer = f.queue(f"Buffer_{kind}", arrived, tokens)
        taken, _ = f.fork(f"Return_{kind}", buffer, map_b={kind: "credit"})
        f.sink(f"K_{kind}", taken)
    return f


def agents_shared(capacity=2):
    """Two agents, each with requests for the other, which answers. One queue each way holds requests and responses."""
    f = Fabric(["req", "rsp"])
    for me, other in (("A", "B"), ("B", "A")):
        response, request = f.switch(f"In_{me}", f"To_{me}.out", ["rsp"])
        f.sink(f"Done_{me}", response)
        answer = f.function(f"Serve_{me}", request, {"req": "rsp"})
        f.queue(f"To_{other}", f.merge(f"Out_{me}", f.source(f"Ask_{me}", ["req"]), answer), capacity)
    return f


def agents_separate(capacity=2):
    """The same agents with a queue for each kind of message."""
    f = Fabric(["req", "rsp"])
    for me, other in (("A", "B"), ("B", "A")):
        asked = f.queue(f"Requests_to_{other}", f.source(f"Ask_{me}", ["req"]), capacity)
        answer = f.function(f"Serve_{other}", asked, {"req": "rsp"})
        f.sink(f"Done_{me}", f.queue(f"Responses_to_{me}", answer, capacity))
    return f


def agents_credits(tokens=1):
    """The same agents with one queue each way, which holds all that is under way: each asks only with a credit."""
    f = Fabric(["req", "rsp", "credit"])
    for me, other in (("A", "B"), ("B", "A")):
        response, request = f.switch(f"In_{me}", f"To_{me}.out", ["rsp"])
        done, back = f.fork(f"Return_{me}", response, map_b={"rsp": "credit"})
        f.sink(f"Done_{me}", done)
        spend = f.queue(f"Credits_{me}", back, tokens, ["credit"] * tokens)
        asked = f.join(f"Ask_{me}", f.source(f"S_{me}", ["req"], "fair"), spend)
        answer = f.function(f"Serve_{me}", request, {"req": "rsp"})
        f.queue(f"To_{other}", f.merge(f"Out_{me}", asked, answer), 2 * tokens)
    return f


def ring(nodes=4):
    """Nodes in a ring: each puts its packets in among those that pass, and takes its own out."""
    to = [f"d{k}" for k in range(nodes)]
    f = Fabric(to)
    for k in range(nodes):
        mine, passing = f.switch(f"Eject{k}", f"Link{(k - 1) % nodes}.out", [to[k]])
        f.sink(f"K{k}", mine)
        put = f.source(f"S{k}", [d for d in to if d != to[k]])
        f.queue(f"Link{k}", f.merge(f"Inject{k}", passing, put), 2)
    return f


def ring_dateline(nodes=4):
    """The ring with two queues for each link: who crosses from the last node to the first goes on in the second."""
    to = [f"d{k}" for k in range(nodes)]
    f = Fabric(to)
    for k in range(nodes):
        mine, passing, last = [], [f.source(f"S{k}", [d for d in to if d != to[k]])], k == nodes - 1
        if k > 0:
            out, on = f.switch(f"Eject{k}", f"Link{k - 1}.out", [to[k]])
            mine.append(out)
            passing.insert(0, on)
        first = f.merges(f"Inject{k}_", passing)
        if last:
            f.queue(f"Cross{k}", first, 2)
        else:
            f.queue(f"Link{k}", first, 2)
            out, on = f.switch(f"EjectCrossed{k}", f"Cross{(k - 1) % nodes}.out", [to[k]])
            mine.append(out)
            if k < nodes - 2:
                f.queue(f"Cross{k}", on, 2)
            else:
                f.sink("Nobody", on)
        f.sink(f"K{k}", f.merges(f"Arrive{k}_", mine))
    return f


STEPS = {"E": (1, 0), "W": (-1, 0), "N": (0, 1), "S": (0, -1)}


def xy(here, there):
    """The next step by XY routing: along the row first, and then along the column. None at the end."""
    if there[0] != here[0]:
        return "E" if there[0] > here[0] else "W"
    if there[1] != here[1]:
        return "N" if there[1] > here[1] else "S"
    return None


def clockwise(here, there):
    """The next step in a mesh of 2 by 2 where packets to the opposite corner turn right at each corner."""
    if here == there:
        return None
    right = {(0, 0): "N", (0, 1): "E", (1, 1): "S", (1, 0): "W"}[here]
    straight = xy(here, there)
    return right if here[0] != there[0] and here[1] != there[1] else straight


def mesh(size, step):
    """A mesh of size by size: a queue for each link, a source and a sink at each node. `step` routes."""
    nodes = [(x, y) for y in range(size) for x in range(size)]
    name = {n: f"{n[0]}{n[1]}" for n in nodes}
    f = Fabric([f"to{name[n]}" for n in nodes])
    after = {n: {w: (n[0] + d[0], n[1] + d[1]) for w, d in STEPS.items()} for n in nodes}
    carries = {}  # what each link carries, by its node and way

    def spread(n, there):
        w = step(n, there)
        if w and there not in carries.setdefault((n, w), []):
            carries[n, w].append(there)
            spread(after[n][w], there)
    for n in nodes:
        for there in nodes:
            spread(n, there)
    for n in nodes:
        outputs = {}  # the channels that go each way, or to the node itself
        back = {"E": "W", "W": "E", "N": "S", "S": "N"}
        inputs = [(f"Link{name[after[n][w]]}{back[w]}.out", w, carries[after[n][w], back[w]])
                  for w in STEPS if (after[n][w], back[w]) in carries]
        put = [there for there in nodes if there != n]
        inputs.append((f.source(f"S{name[n]}", [f"to{name[t]}" for t in put]), "L", put))
        for channel, port, theres in inputs:
            ways = {}
            for there in theres:
                ways.setdefault(step(n, there) or "L", []).append(f"to{name[there]}")
            sent = f.routed(f"Route{name[n]}{port}", channel, sorted(ways.items()))
            for w, out in sent.items():
                outputs.setdefault(w, []).append(out)
        for w, channels in sorted(outputs.items()):
            out = f.merges(f"Arbiter{name[n]}{w}", channels)
            if w == "L":
                f.sink(f"K{name[n]}", out)
            else:
                f.queue(f"Link{name[n]}{w}", out, 2)
    return f


def mesh_xy(size=3):
    """A mesh with XY routing."""
    return mesh(size, xy)


def mesh_turning(size=2):
    """A mesh of 2 by 2 in which packets may make every turn."""
    return mesh(2, clockwise)


def arbiter_tree(depth=2):
    """Requesters under a tree of arbiters, which take turns."""
    f = Fabric(["req"])
    level = [f.queue(f"Q{k}", f.source(f"S{k}", ["req"]), 1) for k in range(2 ** depth)]
    while len(level) > 1:
        tag = len(level) // 2
        level = [f.merge(f"Arbiter{tag}_{k}", level[2 * k], level[2 * k + 1]) for k in range(tag)]
    f.sink("K", f.queue("Granted", level[0], 2))
    return f


def ordering_point(agents=2):
    """Requests of all agents become one order, which every agent sees: each snoop leaves for all at once."""
    f = Fabric(["req", "snoop"])
    asked = [f.queue(f"Ask{k}", f.source(f"S{k}", ["req"]), 2) for k in range(agents)]
    order = f.queue("Order", f.merges("Arbiter", asked), 2)
    order = f.function("Snoop", order, {"req": "snoop"})
    for k in range(agents - 1):
        seen, order = f.fork(f"All{k}", order)
        f.sink(f"Agent{k}", f.queue(f"Seen{k}", seen, 2))
    f.sink(f"Agent{agents - 1}", f.queue(f"Seen{agents - 1}", order, 2))
    return f


DOCUMENTS = {
    "pipeline": pipeline, "fork_join": fork_join, "credits": credits, "virtual_channels": virtual_channels,
    "agents_shared": agents_shared, "agents_separate": agents_separate, "agents_credits": agents_credits,
    "ring": ring, "ring_dateline": ring_dateline, "mesh_xy_2": lambda: mesh_xy(2), "mesh_xy_3": mesh_xy,
    "mesh_turning": mesh_turning, "arbiter_tree": arbiter_tree, "ordering_point": ordering_point,
}

def made(name, sizes):
    """The named fabric; where there is none, or it takes no such sizes, a line that says what there is."""
    makers = {**DOCUMENTS, "mesh_xy": mesh_xy}
    taken = len(inspect.signature(makers[name]).parameters) if name in makers else 0
    if name not in makers or len(sizes) > taken or not all(size.isdecimal() for size in sizes):
        sys.exit("usage: fabrics.py [NAME [SIZE]]; the names are " + ", ".join(sorted(makers)))
    return makers[name](*map(int, sizes))


if __name__ == "__main__":
    if len(sys.argv) > 1:
        sys.stdout.write(made(sys.argv[1], sys.argv[2:]).text())
    else:
        here = os.path.dirname(os.path.abspath(__file__))
        for document, maker in DOCUMENTS.items():
            with open(os.path.join(here, f"{document}.json"), "w", encoding="ascii") as out:
                out.write(maker().text())
