"""The shared words and what one access to a word does.

The counter of the processors that were counted and the lockdown of its greatest value are after EDK II; the accesses
are the project's own. Each takes one step: no other actor comes between the look and the change.
"""

LOCKED = NONE = 16_777_215


def access_text(access):
    """An access as a report shows it, as `claim:1:2`."""
    return ":".join(map(str, access))


def apply(value, access):
    """What the word holds after an access, or None where the access isn't ready and nothing happens."""
    name, *numbers = access
    signal = value % 8
    if name == "look":
        return value
    if name in ("put", "lock"):
        return numbers[0] if numbers else LOCKED
    if name == "up":
        return value if value == LOCKED else value + 1
    if name == "down":
        return value - 1 if value else None
    if name == "lower":
        return value if value in (0, LOCKED) else value - 1
    if name == "claim":
        return numbers[1] if value == numbers[0] else value
    if name == "await":
        return numbers[1] if value == numbers[0] else None
    if name == "seek":
        return value if value < numbers[0] else None
    if name == "signal":
        return value if signal not in (0, 2) else value - signal + 1
    if name == "take":
        return {1: 8, 4: 4}.get(value)
    if name == "clear":
        return value if value < 8 else value - 8
    if name == "raise":
        return value if signal == 4 else None if signal == 1 else value - signal + numbers[0]
    raise ValueError(name)
