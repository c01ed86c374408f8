"""The graph of a stack's runs, drawn plainly from `docs/SPECIFICATION.md`, in DOT and for Mermaid.

Its nodes are found by a search of their own: depth first, in the order of the classes, a node after all that it leads to."""
import re

from model import picture as pictures
from model import stacks
from model.faults import Fault

MOST_PLACES = 65536
SHAPES = {b"undef": b"dashed", b"positive": b"rounded", b"negative": b"bold"}
CORNERS = {b"undef": (b"[", b"]"), b"positive": (b"(", b")"), b"negative": (b"[", b"]")}
DOT_TOP = b"""\
digraph pamcheck {
  graph [rankdir=LR, newrank=true, ranksep=0.6, nodesep=0.25, fontname="sans-serif", labelloc=t, label="%s"];
  node [fontname="sans-serif", fontsize=11, height=0.2, margin="0.08,0.04"];
  edge [fontname="sans-serif", fontsize=10, arrowsize=0.6];
  start [shape=point];
  c0 [shape=point, style=invis];
"""
MERMAID_TOP = b"""\
---
title: "%s"
---
flowchart LR
  classDef undef stroke-dasharray:4 3
  classDef positive stroke-width:1px
  classDef negative stroke-width:3px
  classDef success stroke-width:4px
  start(( ))
"""


class Graph:
    """The nodes, each as its module's number, its state, and its edges as pairs of a class and a target."""

    def __init__(self, items, allowed):
        self.allowed = allowed
        self.nodes = []
        self.found = {}
        self.start = self.target([(items, stacks.START)], stacks.START)

    def target(self, lists, state):
        """Where a run goes on: `n` with the index of a node, or `d` with the number of a decision."""
        module, lists = stacks.next_module(lists, state)
        if module is None:
            return b"d%d" % stacks.CODES.index(lists)
        place = stacks.place(module, lists, state)
        if place not in self.found:
            edges = [(codes, self.target(*after)) for codes, after in stacks.classes(module, lists, state)
                     if any(code in self.allowed[module.number - 1] for code in codes)]
            if len(self.nodes) == MOST_PLACES:
                raise Fault("E19")
            self.found[place] = b"n%d" % len(self.nodes)
            self.nodes.append((module.number, state, edges))
        return self.found[place]

    def ends(self):
        """The decisions to which runs come, in the order of codes."""
        targets = {self.start}.union(*({target for _, target in edges} for _, _, edges in self.nodes))
        return [code for number, code in enumerate(stacks.CODES) if b"d%d" % number in targets]


def dot_label(text):
    return re.sub(rb'["\\]', lambda found: b"\\" + found[0], pictures.plain(text).replace(b"&", b"&amp;"))


def mermaid_label(text):
    return re.sub(rb"[^A-Za-z0-9 _\-+=,.:]", lambda found: b"#%d;" % ord(found[0]), pictures.plain(text))


def class_text(codes):
    """A class of codes; empty for all."""
    return b"" if len(codes) == 31 else stacks.class_text(codes)


def dot(graph, title, names):
    """The lines of the drawing in DOT, of modules with these names."""
    yield DOT_TOP % dot_label(title)
    for number in range(len(names)):
        yield b"  c%d [shape=point, style=invis];\n  c%d -> c%d [style=invis];\n" % (number + 1, number, number + 1)
    for index, (number, state, _) in enumerate(graph.nodes):
        told = b"%s %s" % state
        yield b'  n%d [label="%d %s\\n%s", shape=box, style=%s, group="%s"];\n' % (
            index, number, dot_label(names[number - 1]), told, SHAPES[state.impression], told)
        yield b"  { rank=same c%d n%d }\n" % (number, index)
    yield b"  { rank=sink\n"
    for code in graph.ends():
        shape = b'ellipse, peripheries=2, group="positive ' if code == b"success" else b'octagon, group="negative '
        yield b'  d%d [label="%s", shape=%s%s"];\n' % (stacks.CODES.index(code), code, shape, code)
    yield b"  }\n  start -> %s;\n" % graph.start
    for index, (_, _, edges) in enumerate(graph.nodes):
        for codes, target in edges:
            told = class_text(codes)
            yield b"  n%d -> %s%s;\n" % (index, target, b' [label="%s"]' % told if told else b"")
    yield b"}\n"


def mermaid(graph, title, names):
    """The lines of the drawing for Mermaid, of modules with these names."""
    yield MERMAID_TOP % mermaid_label(title)
    for index, (number, state, _) in enumerate(graph.nodes):
        first, last = CORNERS[state.impression]
        yield b'  n%d%s"%d %s<br/>%s %s"%s:::%s\n' % (
            index, first, number, mermaid_label(names[number - 1]), *state, last, state.impression)
    for code in graph.ends():
        yield b'  d0(["success"]):::success\n' if code == b"success" else b'  d%d{{"%s"}}\n' % (
            stacks.CODES.index(code), code)
    yield b"  start --> %s\n" % graph.start
    for index, (_, _, edges) in enumerate(graph.nodes):
        for codes, target in edges:
            told = class_text(codes)
            yield b"  n%d -->%s %s\n" % (index, b'|"%s"|' % told if told else b"", target)


FORMATS = {b"dot": dot, b"mermaid": mermaid, b"svg": None}


def drawing(language, service, kind, items, modules, allowed):
    """The text of `graph`; of a picture, what it shows."""
    names = [module.path.rpartition(b"/")[2] for module in modules]
    graph, title = Graph(items, allowed), b"%s %s" % (service, kind)
    if language == b"svg":
        return b"".join(pictures.picture(graph, title, names, modules, items))
    return b"".join(FORMATS[language](graph, title, names))
