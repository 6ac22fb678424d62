"""Generated platforms: a small generator draws the arrivals and what a handler writes."""
from images import Image, SIZES

START_REVISION, START_SMBASE = 0x30004, 0x30000
WAVES, MOST_WRITES = 2, 8
ROUNDS = 2000


def draws(seed):
    """The draws of a seed, one after another."""
    x = seed % 2**31
    while True:
        x = (x * 1103515245 + 12345) % 2**31
        yield x // 65536


def arrival(draw):
    return {0: "delayed", 1: "blocked", 2: "absent"}.get(draw % 8, "prompt")


def listed(items):
    return "[" + ", ".join(items) + "]"


def generated_text(seed, processors):
    """The platform file of a seed. The draw of processor 0's arrival is taken, but it always comes at once."""
    draw = draws(seed)
    mode = "relaxed" if next(draw) % 2 else "traditional"
    text = (f'version = 1\nprocessors = {processors}\nmap = "intel64"\npolicy = "elected"\nmode = "{mode}"\n'
            "polls = [16, 16]\nvisits = 8\nops = 64\n")
    for _ in range(WAVES):
        arrivals = [arrival(next(draw)) for _ in range(processors)]
        arrivals[0] = "prompt"
        text += f'\n[[wave]]\nstatus = {listed(f"{chr(34)}{word}{chr(34)}" for word in arrivals)}\nmanage = ["root"]\n'
    writes = [f'{{op = "write", cpu = {i}, reg = "RAX", width = 8, value = {next(draw)}}}' for i in range(min(processors, MOST_WRITES))]
    return text + f'\n[[handler]]\nname = "h0"\ntype = "root"\nanswer = "SUCCESS"\nops = {listed(writes)}\n'


def start_images(processors):
    """Images of zeros but for the revision and the SMBASE."""
    images = [Image("intel64", bytes(SIZES["intel64"])) for _ in range(processors)]
    for image in images:
        image.set("REVISION", START_REVISION)
        image.set("SMBASE", START_SMBASE)
    return images


def generated_schedule(processors):
    """All actors, one after the other, for so many rounds."""
    return list(range(processors + 1)) * ROUNDS
