"""The pool as plain lists: an executable form of its definition.

A class of blocks is a number of bytes. Each class has a list of free blocks, front first. Live blocks, free pages and
live runs are lists too. Run it to print the table of calls that the crate's test goes over.
"""

CLASSES = [64, 128, 256, 512, 1024, 2048]
PAGE = 4096


class Refused(Exception):
    pass


class Pool:
    def __init__(self, start, pages):
        self.blocks = {size: [] for size in CLASSES}
        self.live = []  # (place, class)
        self.free_pages = [start + PAGE * i for i in range(pages)]
        self.runs = []  # (place, number of pages)

    def take_page(self):
        if not self.free_pages:
            raise Refused("out")
        place = min(self.free_pages)
        self.free_pages.remove(place)
        return place

    def take_block(self, size):
        if size == PAGE:
            return self.take_page()
        if self.blocks[size]:
            return self.blocks[size].pop(0)
        place = self.take_block(2 * size)
        self.blocks[size].insert(0, place + size)
        return place

    def take_run(self, count):
        for place in sorted(self.free_pages):
            wanted = [place + PAGE * i for i in range(count)] if count <= len(self.free_pages) else [None]
            if all(page in self.free_pages for page in wanted):
                self.free_pages = [page for page in self.free_pages if page not in wanted]
                self.runs.append((place, count))
                return place
        raise Refused("out")

    def alloc(self, size):
        if size == 0:
            raise Refused("zero")
        for block in CLASSES:
            if size <= block:
                place = self.take_block(block)
                self.live.append((place, block))
                return place
        return self.take_run((size + PAGE - 1) // PAGE)

    def free(self, place):
        for entry in self.live:
            if entry[0] == place:
                self.live.remove(entry)
                self.blocks[entry[1]].insert(0, place)
                return None
        for entry in self.runs:
            if entry[0] == place:
                return self.free_run(entry)
        raise Refused("not")

    def alloc_pages(self, count):
        if count == 0:
            raise Refused("zero")
        return self.take_run(count)

    def free_pages_at(self, place, count):
        if (place, count) not in self.runs:
            raise Refused("not")
        return self.free_run((place, count))

    def free_run(self, entry):
        self.runs.remove(entry)
        self.free_pages += [entry[0] + PAGE * i for i in range(entry[1])]
        return None


def calls():
    """The sequence of the table: (call, its numbers)."""
    # one page, as a handler may use it
    yield "new", 0x100000, 1
    yield "alloc", 64
    yield "alloc", 64
    yield "alloc", 100
    yield "alloc", 4096
    yield "alloc", 0
    yield "free", 0x100001
    yield "free", 0x100000
    yield "alloc", 1
    # no page at all
    yield "new", 0x100000, 0
    yield "alloc", 1
    yield "alloc", 5000
    yield "pages", 1
    yield "pages", 0
    yield "free", 0x100000
    yield "unpages", 0x100000, 0
    # splits down all classes, and each limit of a class
    yield "new", 0x200000, 4
    for size in [1, 64, 65, 128, 129, 256, 257, 512, 513, 1024, 1025, 2048]:
        yield "alloc", size
    for size in [64, 128, 256, 512, 1024, 2048, 2048, 2048]:
        yield "alloc", size
    # exhaustion by single blocks, then recovery in another order
    yield "new", 0x300000, 1
    for _ in range(33):
        yield "alloc", 128
    for i in [3, 30, 0, 17, 31, 4]:
        yield "free", 0x300000 + 128 * i
        yield "free", 0x300000 + 128 * i
    yield "alloc", 64
    for _ in range(7):
        yield "alloc", 128
    yield "alloc", 256
    # blocks are never merged, and keep their class
    yield "new", 0x400000, 2
    for _ in range(4):
        yield "alloc", 2048
    for i in [2, 0, 3, 1]:
        yield "free", 0x400000 + 2048 * i
    yield "alloc", 4096
    for size in [1024, 1024, 512, 2048, 2048, 64, 2048]:
        yield "alloc", size
    # runs between live pages
    yield "new", 0x500000, 10
    for count in [2, 1, 3, 1, 2, 1]:
        yield "pages", count
    yield "pages", 1
    yield "free", 0x502000
    yield "unpages", 0x503000, 2
    yield "unpages", 0x504000, 2
    yield "free", 0x504000
    yield "unpages", 0x503000, 3
    yield "unpages", 0x503000, 3
    yield "pages", 5
    yield "pages", 4
    yield "unpages", 0x507000, 2
    yield "pages", 2
    yield "free", 0x500000
    yield "alloc", 2049
    yield "alloc", 64
    yield "alloc", 4097
    yield "free", 0x502000
    yield "alloc", 8192
    yield "alloc", 12288
    yield "alloc", 16385
    # requests beyond any range, and places outside it
    yield "new", 0x600000, 3
    yield "alloc", 2**64 - 1
    yield "alloc", 2**63
    yield "pages", 2**32 - 1
    yield "pages", 4
    yield "alloc", 12288
    yield "alloc", 12288
    for place in [0, 0x5FF000, 0x600040, 0x601000, 0x603000, 2**64 - 1]:
        yield "free", place
    yield "unpages", 0x600000, 2
    yield "unpages", 0x600000, 4
    yield "free", 0x600000
    yield "free", 0x600000
    # a block at the start of a page is no run, and a run is no block
    yield "alloc", 2048
    yield "unpages", 0x600000, 1
    yield "pages", 1
    yield "free", 0x601000
    yield "alloc", 2048
    yield "alloc", 2048
    yield "free", 0x600800
    yield "pages", 1
    yield "pages", 1
    yield "alloc", 700
    yield "alloc", 300
    yield "free", 0x600C00
    yield "free", 0x600A00
    yield "alloc", 200
    # a mixed sequence: requests with every third call a free at the places of the first page
    yield "new", 0x700000, 2
    for i in range(1, 40):
        if i % 3 == 0:
            yield "free", 0x700000 + 256 * (7 * i % 16)
        else:
            yield "alloc", 37 * i % 600
    yield "pages", 1


def answer_to(pool, name, first, second):
    try:
        if name == "alloc":
            return str(pool.alloc(first))
        if name == "pages":
            return str(pool.alloc_pages(second))
        if name == "free":
            pool.free(first)
        else:
            pool.free_pages_at(first, second)
        return "ok"
    except Refused as refused:
        return str(refused)


def table():
    """A line for each call: its name, a place or a size, a number of pages, and the answer."""
    pool = None
    for name, *numbers in calls():
        first = 0 if name == "pages" else numbers[0]
        second = numbers[-1] if name in ("new", "pages", "unpages") else 0
        if name == "new":
            pool = Pool(first, second)
            answer = "ok"
        else:
            answer = answer_to(pool, name, first, second)
        yield f"{name} {first} {second} {answer}"


def main():
    for line in table():
        print(line)


if __name__ == "__main__":
    main()
