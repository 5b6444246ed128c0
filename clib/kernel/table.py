"""The tables of docs/CLIENTS.md that say what was compared with the kernel, and with which result."""

ROWS = "| Compared with the kernel | Rows | The same |"
REASONS = "| What differs | Rows | Said in |"


def thousands(number):
    """A number as the documents write it."""
    return f"{number:,}"


def table_of_rows(comparison, chosen):
    """The lines of the table of sheets."""
    lines = [ROWS, "|---|---|---|"]
    for sheet in chosen:
        lines.append(f"| {sheet.what} | {thousands(comparison.rows[sheet.name])} | {thousands(comparison.same[sheet.name])} |")
    return lines + [f"| in all | {thousands(comparison.rows.total())} | {thousands(comparison.same.total())} |"]


def table_of_reasons(comparison):
    """The lines of the table of reasons, open ones at the end."""
    lines = [REASONS, "|---|---|---|"]
    used = [reason for reason in comparison.reasons if reason.count()]
    for reason in sorted(used, key=lambda reason: reason.is_open()):
        place = "open: not repaired yet" if reason.is_open() else f"[{reason.document.split('/')[-1]}]({reason.document.split('/')[-1]})"
        lines.append(f"| {reason.title} | {thousands(reason.count())} | {place} |")
    return lines


def tables(comparison, chosen):
    """Both tables, by their first lines."""
    return {ROWS: table_of_rows(comparison, chosen), REASONS: table_of_reasons(comparison)}


def place_of(lines, head):
    """Where the table with a first line begins and ends, or none."""
    if head not in lines:
        return None
    first = last = lines.index(head)
    while last < len(lines) and lines[last].startswith("|"):
        last += 1
    return first, last


def differences(path, comparison, chosen):
    """What a document's tables lack, in words."""
    with open(path, encoding="utf-8") as file:
        lines = file.read().splitlines()
    for head, wanted in tables(comparison, chosen).items():
        place = place_of(lines, head)
        if place is None:
            yield f"{path} has no table '{head}'"
            continue
        written = lines[place[0]:place[1]]
        for line in wanted:
            if line not in written:
                yield f"{path} has other numbers: clib/kernel/compare --write puts this there: {line}"
        for line in written:
            if line not in wanted:
                yield f"{path} has a line that nothing was found for: {line}"


def rewritten(path, comparison, chosen):
    """Writes both tables into a document, at their places."""
    with open(path, encoding="utf-8") as file:
        lines = file.read().splitlines()
    for head, wanted in tables(comparison, chosen).items():
        place = place_of(lines, head)
        if place:
            lines[place[0]:place[1]] = wanted
    with open(path, "w", encoding="utf-8") as file:
        file.write("\n".join(lines) + "\n")
