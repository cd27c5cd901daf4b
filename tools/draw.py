#!/usr/bin/env python3
"""Draws graphs of two instants side by side, as DOT text.

    bin/aeong script <LINES | tools/draw.py BEFORE AFTER | dot -Tsvg >both.svg

It reads the replies of a script. Each reply whose rows have vertices or edges is a graph; the last two are drawn, under
the headings BEFORE and AFTER. What stands in one of them alone is red in the first and green in the second. A vertex or an
edge that changed is bold in both. These two lines ask for whole graphs, at instants of your choice:

    audit: MATCH (n) OPTIONAL MATCH (n)-[e]->() RETURN n, e TT SNAPSHOT 13
    audit: MATCH (n) OPTIONAL MATCH (n)-[e]->() RETURN n, e TT SNAPSHOT 15
"""
import json
import sys


def graphs(replies):
    """The vertices and edges of each reply that has some, by kind and number."""
    found = {}
    for line in replies:
        _, _, reply = line.rstrip("\n").partition(": ")
        if reply.startswith("["):
            for value in json.loads(reply):
                if isinstance(value, dict):
                    found["edge" if "from" in value else "vertex", value["id"]] = value
        elif found:
            yield found
            found = {}


def quoted(text):
    return '"' + text.replace("\\", "\\\\").replace('"', '\\"') + '"'


def label(thing):
    """The labels or the type, and below them the properties."""
    kinds = [thing["type"]] if "type" in thing else [":".join([f"v{thing['id']}", *thing["labels"]])]
    return "\n".join(kinds + [f"{name}: {json.dumps(value, ensure_ascii=False)}" for name, value in thing["properties"].items()])


def picture(place, title, shown, other, colour):
    """One of the two graphs, with what the other one hasn't in a colour."""
    yield f"  subgraph cluster_{place} {{"
    yield f"    label={quoted(title)}"
    for key, thing in sorted(shown.items(), key=lambda pair: (pair[0][0] == "edge", pair[0][1])):
        name = lambda number: f"{place}_v{number}"
        stands = f"{name(thing['from'])} -> {name(thing['to'])}" if key[0] == "edge" else name(thing["id"])
        drawn = [f"label={quoted(label(thing))}"]
        if key not in other:
            drawn += [f"color={colour}", f"fontcolor={colour}"]
        elif other[key] != thing:
            drawn.append("style=bold")
        yield f"    {stands} [{', '.join(drawn)}]"
    yield "  }"


def main():
    if len(sys.argv) != 3:
        sys.exit("usage: tools/draw.py BEFORE AFTER <REPLIES")
    found = list(graphs(sys.stdin))
    if len(found) < 2:
        sys.exit("tools/draw.py: fewer than two replies have vertices or edges")
    before, after = found[-2:]
    print("digraph instants {")
    print("  node [shape=box]")
    for line in picture("before", sys.argv[1], before, after, "red"):
        print(line)
    for line in picture("after", sys.argv[2], after, before, "darkgreen"):
        print(line)
    print("}")


main()
