"""The counts of a filter: how records were answered, what was sent, and what was dropped, by the lines of its program."""

from collections import Counter
from collections.abc import Iterable, Mapping

ANSWERS = ("value", "done", "default", "nohandler")
REFUSALS = ("unknown_event", "wrong_args", "spent")
DROPS = ("short", "version", "header_length", "total_length", "checksum", "fragment", "udp_length")


def read_counts(lines: Iterable[str]) -> Counter[str]:
    """The counts by name: `run E N` and `let E N` of bindings, `send P` and `lost P` of endpoints, the others as they are."""
    counts: Counter[str] = Counter()
    for line in lines:
        match line.split():
            case ["send", endpoint, _, sends, "lost", lost]:
                counts.update({f"send {endpoint}": int(sends), f"lost {endpoint}": int(lost)})
            case ["hit", event, number, runs, "let", lets]:
                counts.update({f"run {event} {number}": int(runs), f"let {event} {number}": int(lets)})
            case [*words, count]:
                counts[" ".join(words)] = int(count)
    return counts


def summary(counts: Counter[str], endpoints: Mapping[int, str]) -> list[str]:
    """The lines that tell counts, in a fixed order, zeros too; endpoints are names by number."""
    names = ["captures", "records", "cut", "accepted", "refused", *ANSWERS, *REFUSALS, "jobs"]
    lines = [f"{name} {counts[name]}" for name in names]
    lines += [f"send {at} {name} {counts[f'send {at}']} lost {counts[f'lost {at}']}" for at, name in endpoints.items()]
    return lines + [f"drop {name} {counts[f'drop {name}']}" for name in DROPS]
