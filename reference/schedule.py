"""Schedules: the order in which actors are asked to step."""
import re

MOST_ACTORS = 4_194_304

# An actor's number or `all`, alone or with `*` and a count from 1 to 65535.
ITEM = re.compile(rb"(all|0|[1-9][0-9]{0,4})(?:\*([1-9][0-9]{0,4}))?")


class ScheduleFault(Exception):
    """The words of a refusal of a schedule."""


def read_schedule(data, processors):
    """The actors of a schedule. Items stand between spaces, tabs and line ends (0AH). The first wrong item is the
    refusal, and only after the last item their number."""
    runs = []
    for found in re.finditer(rb"[^ \t\n]+", data):
        runs.append(read_item(found.group(), found.start(), processors))
    if sum(len(actors) * count for actors, count in runs) > MOST_ACTORS:
        raise ScheduleFault("too-long")
    return [actor for actors, count in runs for actor in actors * count]


def read_item(item, at, processors):
    """The actors of one item and how often they step."""
    form = ITEM.fullmatch(item)
    if not form or int(form[2] or 1) > 65535:
        raise ScheduleFault(f"token {at}")
    if form[1] == b"all":
        return list(range(processors + 1)), int(form[2] or 1)
    if int(form[1]) > processors:
        raise ScheduleFault(f"actor {at} {int(form[1])}")
    return [int(form[1])], int(form[2] or 1)
