"""Writes the results of tools/evidence into docs/MEASUREMENTS.md, between the marks of each block there."""
import math
import re

BLOCK = re.compile(r"(<!-- tools/evidence: ([\w-]+) -->\n)(.*?)(<!-- end -->\n)", re.S)
CHECK = re.compile(r"== (.*): passed, (\d+) s")
REFUSED = re.compile(r"(\d+) of (\d+) wrong bodies refused; (\d+) s of the processor")
ROW = re.compile(r"(?:row (\S+)|(jbig2-\w+ .*)): (\d+) requests")
RUNS = re.compile(
    r"runs (?P<first>\d+) to (?P<last>\d+): (?P<wrong>\d+) wrong, (?P<stopped>\d+) stopped at large work, "
    r"(?P<drawn>\d+) drawn, (?P<memory>\d+) out of memory, slowest (?P<slowest>[\d.]+) s \(.*?\), largest (?P<largest>\d+) MiB"
)
HEAVY = re.compile(
    r"(?P<what>.*?) +(?P<bytes>\d+) bytes +(?P<seconds>[\d.]+) s, +(?P<memory>\d+) MiB, at 65535 +(?P<scaled>\d+) s, (?P<end>\w+)"
)


def table(head, rows):
    first, *others = ["| " + " | ".join(cells) + " |" for cells in (head, *rows)]
    return [first, "|" + "---|" * len(head), *others]


def side_by_side(head, rows, count):
    """A table of narrow rows: a part of them under each of several equal heads."""
    rows = rows + [[""] * len(head)] * (-len(rows) % count)
    height = len(rows) // count
    return table(head * count, [[cell for row in rows[line::height] for cell in row] for line in range(height)])


def pages(results, before):
    """A row for each page. What a page is stays as the table said before."""
    said = dict(re.findall(r"(?m)^\| (\S[^|]*?) \| ([^|]*) \|", before))
    rows, parts = [], []
    for _, result in results:
        name, instructions, ours, theirs, kilobytes, other = result["figures"][-1].rsplit(maxsplit=5)
        parts.append(float(ours) / float(theirs))
        rows.append([name, said.get(name, ""), instructions, ours, theirs, f"{parts[-1]:.2f}", kilobytes, other])
    head = ["Page", "What it is", "Instructions", "ms", "jbig2dec", "Part", "KB", "jbig2dec"]
    mean = math.exp(sum(map(math.log, parts)) / len(parts))
    return [*table(head, rows), "", f"The geometric mean of the parts is {mean:.2f}."]


def refusals(results, before):
    """The requests that each row and each command make, and their sum."""
    lines = [line for _, result in results for line in result["figures"]]
    found = [ROW.match(line) for line in lines]
    counts = [(f"row {match[1]}" if match[1] else f"`{match[2]}`", match[3]) for match in found if match]
    return [*side_by_side(["Of", "Requests"], counts, 4), "", f"{lines[-1]}."]


def gate(results, before):
    """The seconds of each of its checks."""
    found = (CHECK.fullmatch(line) for _, result in results for line in result["figures"])
    return table(["Check", "Seconds"], [[f"`{match[1]}`", match[2]] for match in found if match])


def wrong_bodies(results, before):
    """How many of each crate were refused, and what that took."""
    found = [(name, REFUSED.fullmatch(result["figures"][-1])) for name, result in results]
    refused, tried, seconds = (sum(int(match[place]) for _, match in found) for place in (1, 2, 3))
    rows = [(f"`{'bindings/c/' if name == 'c' else name}`", f"{match[1]} of {match[2]}", match[3]) for name, match in found]
    lines = side_by_side(["Of", "Refused", "Seconds"], rows, 2)
    return [*lines, "", f"{refused} of {tried} in all, in {seconds} s of the processor."]


def damage(results, before):
    """A row for each piece."""
    found = [RUNS.match(result["figures"][-1]) for _, result in results]
    rows = [[f"{match['first']} to {match['last']}", *match.group("wrong", "drawn", "stopped", "memory", "slowest", "largest")]
            for match in found]
    rows[-1][0] += ", within a limit of work"
    return table(["Files", "Wrong", "Drawn", "Stopped, at large sizes", "Out of memory", "Slowest, s", "Most MiB"], rows)


def heaviest(results, before):
    """A row for each file: without a limit of work, then within one."""
    columns = [[HEAVY.match(line) for line in result["figures"]] for _, result in results]
    ends = {"drawn": "drawn", "error": "refused"}
    cells = ("seconds", "memory", "scaled")
    rows = [[free["what"], free["bytes"], *free.group(*cells), ends[free["end"]], *bound.group(*cells), ends[bound["end"]]]
            for free, bound in zip(*columns)]
    head = ["File", "Bytes", *["s", "MiB", "s at 65535", "It is"] * 2]
    return [*table(head, rows), "", f"With {results[0][0]} (SIDE). The last four columns are within a limit of work."]


def proofs(results, before):
    """For each crate the seconds of the processor, and the most megabytes of a process; then what the whole took."""
    lines = [line for _, result in results for line in result["figures"]]
    cells = [line.split() for line in lines if re.fullmatch(r"\w+(?: +\d+){4}", line)]
    rows = [[f"`{name}`", *numbers] for name, *numbers in cells]
    return [*side_by_side(["Crate", "Proof", "Tests", "Edits", "MB"], rows, 2), "", f"{lines[-1]}."]


# Stages that have a block of their own, which is written where all of their steps were run.
OWN = {
    "gate": gate, "wrong-bodies": wrong_bodies, "refusals": refusals, "damage": damage, "heaviest": heaviest, "pages": pages,
    "proofs": proofs,
}
# Stages of whose steps each line says how far a step came, and the last one all of it.
LAST_LINE = ("comparisons",)


def runs(stages):
    """A table of the steps that came to one line, and the lines of the others."""
    rows, long = [], []
    for stage, results in stages.items():
        for name, result in results:
            figures = result["figures"][-1:] if stage in LAST_LINE else result["figures"]
            if len(figures) == 1:
                rows.append([f"{stage}: {name}", str(result["seconds"]), figures[0].replace("|", "\\|")])
            else:
                long += ["", f"{stage}, {name}, in {result['seconds']} s:", "", "```", *figures, "```"]
    return [*table(["Step", "Seconds", "What it came to"], rows), *long] if rows else long[1:]


def written(text, stages, commit):
    """The document with these results of a commit. A block stays as it was where it has no results. A stage without a
    block is written with the other runs."""
    others = {name: results for name, results in stages.items() if name not in [block[1] for block in BLOCK.findall(text)]}

    def block(match):
        name, before = match[2], match[3]
        results = stages.get(name, [])
        if name == "runs":
            lines = runs(others)
        else:
            lines = OWN[name](results, before) if results else []
        return f"{match[1]}Of the commit {commit[:8]}:\n\n" + "\n".join(lines) + "\n" + match[4] if lines else match[0]

    return BLOCK.sub(block, text)
