#!/usr/bin/env python3
"""Times of `solve` and `solve_once` beside those of the plain worklist of worklist.c, over the same graphs in the same run.

Build crates/solve_cases first (`rt run </dev/null` in its folder). Each time is the least of several, of processor time without what it
takes to read the graph. Prints a table, and ends with an error where the two programs find other rows."""
import pathlib, random, re, subprocess, sys, tempfile

HERE = pathlib.Path(__file__).resolve().parent
OURS = HERE.parent.parent / "crates/solve_cases/out/solve_cases"


def chain(nodes, pairs, numbering):
    """A chain; each node sets a pair and clears another. Numbered along the flow, against it, or at random."""
    number = list(range(nodes))
    if numbering == "against":
        number.reverse()
    elif numbering == "shuffled":
        random.Random(1).shuffle(number)
    lines = [f"graph chain-{numbering} {nodes} {pairs} {number[0]}"]
    for i in range(nodes):
        if i + 1 < nodes:
            lines.append(f"edge {number[i]} {number[i + 1]}")
        lines.append(f"set {number[i]} {i * 7 % pairs} 1")
        lines.append(f"clear {number[i]} {(i * 11 + 5) % pairs} 1")
    return lines + [f"order {node}" for node in number]


def body(nodes, pairs):
    """A body as programs have them: statements, branches, and loops within loops up to three deep, numbered as they are written. What a loop
    can lose its head clears; one node in four sets a pair."""
    chance = random.Random(2)
    lines = [f"graph body {nodes} {pairs} 0"]
    loops, branch = [], None
    for node in range(1, nodes):
        lines.append(f"edge {node - 1} {node}")
        kind = chance.random()
        if kind < 0.25:
            lines.append(f"set {node} {chance.randrange(pairs)} 1")
        elif kind < 0.35 and branch is None and not loops:
            branch = node
        elif kind < 0.45 and branch is not None:
            lines.append(f"edge {branch} {node}")
            branch = None
        elif kind < 0.50 and len(loops) < 3 and branch is None:
            loops.append(node)
        elif kind < 0.60 and loops:
            lines.append(f"edge {node} {loops.pop()}")
    return lines


def crowded(nodes, pairs, edges, shuffled=False):
    """Edges onwards between any two nodes, given node by node or shuffled; each node sets a pair and copies one."""
    chance = random.Random(3)
    name = "crowded-shuffled" if shuffled else "crowded"
    lines = [f"graph {name} {nodes} {pairs} 0"]
    for node in range(nodes):
        lines.append(f"set {node} {chance.randrange(pairs)} 1")
        lines.append(f"copy {node} {chance.randrange(pairs)} 1 {chance.randrange(pairs)}")
    ends = [(node, node + 1) for node in range(nodes - 1)]
    while len(ends) < edges:
        one, other = chance.randrange(nodes), chance.randrange(nodes)
        if one != other:
            ends.append((min(one, other), max(one, other)))
    if shuffled:
        chance.shuffle(ends)
    else:
        ends.sort(key=lambda end: end[0])
    return lines + [f"edge {one} {other}" for one, other in ends]


def tangled(nodes, pairs):
    """Two edges a node between any two nodes, in both directions; each node sets two pairs and one in four clears one."""
    chance = random.Random(4)
    lines = [f"graph tangled {nodes} {pairs} 0"]
    for node in range(nodes):
        lines += [f"edge {node} {chance.randrange(nodes)}" for _ in range(2)]
        lines += [f"set {node} {chance.randrange(pairs)} 1" for _ in range(2)]
        if node % 4 == 0:
            lines.append(f"clear {node} {chance.randrange(pairs)} 1")
    return lines


def shifting(nodes, pairs):
    """A loop round which each pair moves on by one place, so that each round loses one: as many rounds as pairs."""
    lines = [f"graph shifting {nodes} {pairs} 0", f"set 0 0 {pairs}", "clear 1 0 1", f"copy 1 1 {pairs - 1} 0"]
    lines += [f"edge {node - 1} {node}" for node in range(1, nodes)]
    return lines + [f"edge {nodes - 1} 1"]


def run(program, text, rounds):
    """The least times that a program prints for a graph, what holds, and its peak memory in KiB."""
    with tempfile.TemporaryFile("w+") as file:
        file.write(f"{text}\ntime {rounds}\n")
        file.seek(0)
        output = subprocess.run(["/usr/bin/env", "time", "-f", "%M", str(program)], stdin=file, capture_output=True, text=True, check=True)
    found = re.fullmatch(r"\S+: solve (\d+)(?: solve_once (\S+))? reached (\d+) held (\d+)\s*", output.stdout)
    once = None if found[2] in (None, "-") else int(found[2])
    return int(found[1]), once, (found[3], found[4]), int(output.stderr.split()[-1])


def measure(lines, folder):
    words = lines[0].split()
    nodes, pairs = int(words[2]), int(words[3])
    edges = sum(line.startswith("edge") for line in lines)
    cells = nodes * pairs
    rounds = 3 if cells > 1 << 28 else 25 if cells > 1 << 22 else 200
    text = "\n".join(lines)
    solve, once, rows, memory = run(OURS, text, rounds)
    plain, _, plain_rows, plain_memory = run(folder / "worklist", text, rounds)
    if rows != plain_rows:
        sys.exit(f"other rows: {words[1]} {rows} {plain_rows}")
    unit = edges * max(1, -(-pairs // 64))
    once_text = "-" if once is None else f"{once / 1000:.0f}"
    once_ratio = "-" if once is None else f"{once / plain:.2f}"
    print(f"| {words[1]} | {nodes} | {edges} | {pairs} | {solve / 1000:.0f} | {once_text} | {plain / 1000:.0f} | {solve / plain:.2f} | {once_ratio} | {solve / unit:.1f} | {memory // 1024} |", flush=True)


def main():
    with tempfile.TemporaryDirectory() as name:
        folder = pathlib.Path(name)
        subprocess.run(["gcc", "-O2", "-march=x86-64-v2", "-o", folder / "worklist", HERE / "worklist.c"], check=True)
        print("| graph | nodes | edges | pairs | solve µs | solve_once µs | C µs | solve / C | solve_once / C | solve, ns an edge and word | MiB |")
        print("|---|--:|--:|--:|--:|--:|--:|--:|--:|--:|--:|")
        for nodes in (100, 1000, 10000, 100000):
            measure(body(nodes, 64), folder)
        for edges in (1000, 10000, 100000, 1000000):
            measure(crowded(1000, 64, edges), folder)
        measure(crowded(1000, 64, 1000000, shuffled=True), folder)
        for pairs in (64, 640, 6400, 64000):
            measure(body(1000, pairs), folder)
        for nodes in (100, 1000, 10000):
            measure(tangled(nodes, 256), folder)
        for pairs in (64, 640):
            measure(shifting(1000, pairs), folder)
        for numbering in ("along", "shuffled", "against"):
            measure(chain(65536, 64, numbering), folder)
        if "--large" in sys.argv:
            measure(body(65536, 16384), folder)
            measure(chain(65536, 16384, "against"), folder)


main()
