"""The table of docs/TESTED.md that says when each planted body was refused."""
import datetime
import re

PAGE = "docs/TESTED.md"
SECTION = "## Bodies that are planted once in a while"
ROW = re.compile(r"^\| `(\w+)` \| ((?:`[\w.-]+`(?:, )?)+) \| ([^|]*) \|$")
HEADING = re.compile(r"^# planted on (\d{4}-\d\d-\d\d)$")
REFUSED = re.compile(r"^(\w+)/([\w.-]+): refused, by (a check of [\w ]+|one check with [\w, ]+|the compiler: it does not compile)(?:: |$)")
COMPILER = "by the compiler"


def heading():
    """The line with which an output begins."""
    return f"# planted on {datetime.date.today()}"


def rows(top):
    """Each row of the table: its number among the lines of the page, the crate, its bodies, and the result."""
    is_in = False
    for number, line in enumerate((top / PAGE).read_text(encoding="utf-8").split("\n")):
        is_in = line == SECTION if line.startswith("## ") else is_in
        match = ROW.match(line) if is_in else None
        if match:
            yield number, match[1], re.findall(r"`([^`]+)`", match[2]), match[3]


def left_to_the_compiler(top):
    """The bodies that the compiler is to refuse, as pairs of a crate and a name."""
    return {(crate, name) for _, crate, names, result in rows(top) if COMPILER in result for name in names}


def refused(texts):
    """What these outputs say was refused: for each crate and name the result as the table has it, the latest where there are several."""
    found = {}
    for text in texts:
        date = None
        for line in text.splitlines():
            date = (HEADING.match(line) or [None, date])[1]
            match = REFUSED.match(line)
            if match and date:
                found[match[1], match[2]] = max(found.get((match[1], match[2]), ""), f"refused, {date}, by {match[3]}")
    return found


def row(crate, names, result):
    return f"| `{crate}` | {', '.join(f'`{name}`' for name in names)} | {result} |"


def redated(old, results):
    """The rows in place of each of these, by the number of its line. What has a new result comes into one row for each crate and result."""
    made, moved = {}, {}
    for number, crate, names, result in old:
        by = {result: []}
        for name in names:
            by.setdefault(results.get((crate, name), result), []).append(name)
        made[number] = [(crate, by.pop(result), result)]
        for said, names_so in by.items():
            if (crate, said) in moved:
                moved[crate, said].extend(names_so)
            else:
                moved[crate, said] = names_so
                made[number].append((crate, names_so, said))
    return {number: [row(*it) for it in rows_there if it[1]] for number, rows_there in made.items()}


def put_dates(top, logs):
    """Rewrites the table by these outputs. Gives the status: 1 where an output has a body that the table lacks, else 0."""
    texts = []
    for log in logs:
        with open(log, encoding="utf-8") as file:
            texts.append(file.read())
    results, old = refused(texts), list(rows(top))
    known, made = {(crate, name) for _, crate, names, _ in old for name in names}, redated(old, results)
    lines = (top / PAGE).read_text(encoding="utf-8").split("\n")
    lines = [it for number, line in enumerate(lines) for it in made.get(number, [line])]
    (top / PAGE).write_text("\n".join(lines), encoding="utf-8")
    for crate, name in sorted(results.keys() - known):
        print(f"{PAGE} has no row with {crate}/{name}")
    print(f"{len(results.keys() & known)} of {len(known)} bodies have a new date")
    return 1 if results.keys() - known else 0
