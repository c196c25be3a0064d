"""What was tried, as tables in Markdown."""
import collections


def cell(text, most=160):
    text = " ".join(text.split()).replace("|", "\\|")
    return text if len(text) <= most else text[: most - 2] + " …"


def by_version(chosen, by):
    """A row for each version, with the recorded files that notice it."""
    rows = ["| no. | where | what | old | new | noticed by |", "|---|---|---|---|---|---|"]
    for w, crates in zip(chosen, by):
        rows.append(f"| {w.number} | {w.place} | {w.what} | `{cell(w.old, 400)}` | `{cell(w.new, 400)}` | {', '.join(crates) or 'nothing'} |")
    return "\n".join(rows) + "\n"


def by_expression(chosen, by):
    """A row for each expression: how many wrong versions, and how many of them each recorded file notices."""
    rows = ["| where | expression | wrong versions | noticed by |", "|---|---|---|---|"]
    found = collections.defaultdict(list)
    for w, crates in zip(chosen, by):
        found[w.place, w.old].append(crates)
    for (place, old), noticed in found.items():
        counts = collections.Counter(crate for crates in noticed for crate in crates)
        told = ", ".join(f"{crate} {n}" for crate, n in counts.items())
        left = sum(not crates for crates in noticed)
        told += (", " if told and left else "") + (f"nothing {left}" if left else "")
        rows.append(f"| {place} | `{cell(old)}` | {len(noticed)} | {told} |")
    return "\n".join(rows) + "\n"


def unnoticed(chosen, reasons):
    """Those that nothing notices, by their reasons."""
    rows = ["| where | what | wrong | why nothing can show it |", "|---|---|---|---|"]
    for w in chosen:
        if w.number in reasons:
            rows.append(f"| {w.place} | {w.what} | `{cell(w.new)}` | {reasons[w.number]} |")
    return "\n".join(rows) + "\n"
