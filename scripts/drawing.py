"""Pictures of a function by the text of `show`, as Graphviz's text. Each edge is one that the text tells, but for those of
the tree of dominators, which are computed from these."""
import re

from stages import graphs_of, members, one_named, show

MARK = re.compile(r"\.(\d+)")
BARS = "the bars beside the code: what is live, a column for each temporary"
TREE = "each block under the last that dominates it; dashed: what leads back to a dominator, as a loop does"
PALETTE = ("#fbb4ae #b3cde3 #ccebc5 #decbe4 #fed9a6 #ffffcc #e5d8bd #fddaec #b3e2cd #fdcdac #cbd5e8 #f4cae4 #e6f5c9 "
           "#fff2ae #f1e2cc #cccccc #8dd3c7 #ffffb3 #bebada #fb8072 #80b1d3 #fdb462 #b3de69 #fccde5 #bc80bd").split()
COLOURS = "$v0 $v1 $a0 $a1 $a2 $a3 $t0 $t1 $t2 $t3 $t4 $t5 $t6 $t7 $t8 $t9 $s0 $s1 $s2 $s3 $s4 $s5 $s6 $s7 $ra".split()


def quoted(text):
    return text.replace("\\", "\\\\").replace('"', '\\"')


# The flow of control: blocks with their instructions, and beside these what is live.

def ends(function):
    """For each block, by its place, the places to which its last statement leads."""
    found, last = {}, []
    for line in function.part("blocks"):
        label = re.fullmatch(r"LABEL \.(\d+)", line)
        if label:
            last = found[int(label[1])] = []
        elif line.startswith("  ") and not line.startswith("   "):
            last[:] = [line.strip()]
        else:
            last.append(line.strip())
    return {place: [int(it) for it in MARK.findall(" ".join(lines))] if lines[0].startswith(("JUMP", "CJUMP")) else []
            for place, lines in found.items()}


def live_sets(function):
    """The instructions of a function, each with the set that is live out of it, as the text tells it or its changes."""
    live = set()
    for line in function.part("live"):
        code, *comments = line.strip().split("  # ")
        words = next((it.split()[1:] for it in comments if it.split()[0] == "live"), [])
        if words and words[0].isdigit():
            live = live | {it[1:] for it in words[1:] if it[0] == "+"}
            live = live - {it[1:] for it in words[1:] if it[0] == "-"}
        else:
            live = set(members(words))
        yield code, frozenset(live)


def parts(function, places):
    """The instructions of each block, by its place; those before the first mark stand in the first block's."""
    found, at, before = {}, None, []
    for code, live in live_sets(function):
        mark = re.fullmatch(r"\.(\d+):", code)
        if mark and int(mark[1]) in places:
            at = found[int(mark[1])] = before
            before = []
        (before if at is None else at).append((code, live))
    return found


def number(name):
    return int(re.match(r"t(\d+)", name)[1])


def bars(rows):
    """The code of a block with a column for each temporary that is live in it."""
    columns = sorted({it for _, live in rows for it in live if it[0] == "t"}, key=number)
    width = max([len(code) for code, _ in rows], default=0)
    head = f"{'':<{width}} " + " ".join(columns)
    for code, live in rows:
        marks = " ".join(("|" if it in live else "").ljust(len(it)) for it in columns)
        yield f"{code:<{width}} {marks}".rstrip()
    if columns:
        yield head


def flow(function):
    leads = ends(function)
    code = parts(function, leads)
    yield f'digraph "{quoted(function.head)}" {{'
    yield f'  label="{quoted(function.head)}\\n{BARS}"; node [shape=box, fontname=monospace];'
    for place in leads:
        lines = "".join(quoted(it) + "\\l" for it in bars(code.get(place, [])))
        yield f'  b{place} [label=".{place}\\l{lines}"];'
    for place, targets in leads.items():
        sides = ["yes", "no"] if len(targets) == 2 else [""]
        for to, side in zip(targets, sides):
            yield f'  b{place} -> b{to}' + (f' [label="{side}"];' if side else ";")
    yield "}"


# The tree of dominators, by the definition: a block dominates those to which no path comes from the first block without it.

def reached(leads, without=None):
    """The blocks to which paths come from the first block, by the edges that the text tells."""
    found, left = set(), [min(leads)]
    while left:
        place = left.pop()
        if place != without and place not in found:
            found.add(place)
            left += leads[place]
    return found


def dominators(leads):
    """The blocks that dominate each block that is reached, and itself among them."""
    every = reached(leads)
    found = {place: {place} for place in every}
    for one in every:
        for place in every - reached(leads, one):
            found[place].add(one)
    return found


def parents(found):
    """The last block to dominate each block but the first, which all its other dominators dominate."""
    return {place: max(of_it - {place}, key=lambda one: len(found[one])) for place, of_it in found.items() if len(of_it) > 1}


def dominator_tree(function):
    leads = ends(function)
    found = dominators(leads)
    yield f'digraph "{quoted(function.head)}" {{'
    yield f'  label="{quoted(function.head)}\\n{TREE}"; node [shape=box, fontname=monospace];'
    for place in leads:
        yield f'  b{place} [label=".{place}"' + ("];" if place in found else ', style=dotted];')
    for place, parent in sorted(parents(found).items()):
        yield f"  b{parent} -> b{place};"
    for place in sorted(found):
        for to in sorted(set(leads[place]) & found[place]):
            yield f"  b{place} -> b{to} [style=dashed, constraint=false];"
    yield "}"


# Interference: the first round's graph, with the registers of the last round.

def homes(function):
    """The register of each temporary that has one after the last round."""
    return {words[1].split(":")[0]: words[2] for words in map(str.split, function.part("registers"))
            if len(words) == 3 and words[0] == "colour"}


def interference(function):
    graph, registers = graphs_of(function)[0], homes(function)
    others = {it for row in [*graph.near.values(), *graph.moves] for it in row} - set(graph.near)
    named = [*graph.near, *sorted(others, key=COLOURS.index)]
    yield f'graph "{quoted(function.head)}" {{'
    yield f'  label="{quoted(function.head)}\\nthe first round; filled by the last"; overlap=false; layout=neato;'
    for name in named:
        colour = name if name[0] == "$" else registers.get(name.split(":")[0])
        fill = PALETTE[COLOURS.index(colour)] if colour in COLOURS else "white"
        text = name if name[0] == "$" else f"{name}\\n{graph.degrees[name]}" + (f", {colour}" if colour else "")
        shape = "box" if name[0] == "$" else "ellipse"
        yield f'  "{name}" [label="{text}", shape={shape}, style=filled, fillcolor="{fill}"];'
    for name, near in graph.near.items():
        for other in near:
            if other[0] == "$" or number(other) < number(name):
                yield f'  "{name}" -- "{other}";'
    for to, source in graph.moves:
        yield f'  "{to}" -- "{source}" [style=dotted, color=blue];'
    yield "}"


PICTURES = {"flow": flow, "dominators": dominator_tree, "interference": interference}


def draw(path, name, picture):
    """The lines of a picture of a function of a source."""
    return PICTURES[picture](one_named(show(path), name))
