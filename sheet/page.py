"""The generated parts of docs/PHASES.md: the channel time of the old default, the table of phases, the times of the engine's orders, the
delays of the clutch's, and the kinds of shift."""

from table import sheet_rows

from pages import table_of


def limit_text(limits, order):
    """A limit by its entry, its name and its value in the new default."""
    limit = limits.get(order)
    return f"{limit.entry} {limit.name}, {limit.new_default} ms" if limit else ""


def delay_text(limits, order):
    """A delay by its entry, its name and its value in the new default, with that of the house's table."""
    return f"{limit_text(limits, order)} (house {limits[order].house} ms)"


def old_default_text(channel):
    """That a file without a table is judged with the old default, and with which channel time."""
    return (f"A file without a table is judged with the old default, whose channel time, {channel.entry} {channel.name}, is "
            f"{channel.old_default} ms and not {channel.new_default} ms;\nits other limits are those of the new default.")


def joined(values, sign):
    """What stands in a cell for the phases of a row; once where it is the same."""
    said = [str(value or "") for value in values]
    return said[0] if len(set(said)) == 1 else sign.join(said)


def comment(table, listed, phases):
    """What stands behind a case of the code: the phases of its row where that has more of them, else what the sheet says of it."""
    rows = [table.rows[phase] for phase in listed]
    if len(phases) < len(listed):
        return between(rows).join(str(phase) for phase in listed)
    return between(rows).join(row.said for row in rows if row.said)


def between(rows):
    """What stands between the phases of one row: a comma where they are alike, else a stroke."""
    return ", " if len({(row.order, row.next, row.clutch) for row in rows}) == 1 else " / "


def phase_row(table, phases):
    """A row of the table: one phase, or two that the sheet has in one row."""
    rows = [table.rows[phase] for phase in phases]
    order, next_, clutch = (joined([getattr(row, column) for row in rows], between(rows)) for column in ("order", "next", "clutch"))
    return (between(rows).join(f"{row.phase} {row.said}".strip() for row in rows), order, next_, clutch,
            limit_text(table.limits["device"], order), limit_text(table.limits["phase"], order))


def parts(table, code):
    """The generated parts by name."""
    head = "phase", "order", "next when taken", "after asking for the clutch", "device limit", "phase limit"
    phases = table_of(head, (phase_row(table, phases) for phases in sheet_rows(code)))
    latest, earliest = table.limits["ex"], table.limits["de"]
    engine = table_of(("order", "taken until", "clutch asked for from"),
                      ((order, limit_text(latest, order), limit_text(earliest, order)) for order in latest))
    plain, error = table.limits["plain"], table.limits["error"]
    clutch = table_of(("order", "good from", "failed from"),
                      ((order, delay_text(plain, order), delay_text(error, order)) for order in plain))
    kinds = table_of(("request", "kind", "first phase", "never older than, while unfinished"),
                     ((str(kind.request), kind.name, str(kind.first), f"{kind.sum} ms") for kind in table.kinds))
    return {"old default": old_default_text(table.channel), "phases": phases, "engine": engine, "clutch": clutch, "kinds": kinds}
