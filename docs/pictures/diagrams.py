"""The two pictures that have no numbers: the chain of tables while one is copied, and the way of a put."""
from svg import Picture

STATES = [("empty", "empty", "no key yet"), ("held", "7 : 5", "a key and its number"), ("primed", "7 : 5′", "primed: nobody writes it"),
          ("done", "done", "finished: its entry is above")]


# Keys of a table of eight slots and of one of sixteen, each at home, where its key is the slot's number in so many bits.
THIS = {0: ("done", "8"), 1: ("done", "9"), 2: ("primed", "2 : 7′"), 3: ("primed", "11 : 1′"), 4: ("held", "4 : 6"), 6: ("held", "6 : 0")}
NEXT = {8: ("held", "8:5"), 9: ("held", "9:2"), 2: ("held", "2:7")}


def table(picture, y, title, slots, held):
    """A row of so many slots: what is in each, and its state. It answers where the middle of a slot is."""
    picture.text(14, y + 21, title)
    width = 496 / slots
    for at in range(slots):
        kind, words = held.get(at, ("empty", ""))
        picture.box(96 + width * at, y, width - 4, 32, kind)
        picture.text(96 + width * (at + 0.5) - 2, y + 20, words, "code", "middle")
    return lambda at: 96 + width * (at + 0.5) - 2


def chain():
    """Two tables, the lower one half copied; a slot's states, and which step leads from one to the next."""
    title = "A table is copied to the next one while calls go on"
    picture = Picture(640, 330, title,
                      "The lower table has eight slots: two finished, two primed, two with a key and a number, two empty. The upper "
                      "table of sixteen slots has the entries of the finished ones, and of one that is primed. A slot goes from empty "
                      "to held by a put, from held to primed by its copier, and from primed to finished once its entry is above; an "
                      "empty slot is closed at once.")
    picture.text(14, 20, title, "head")
    above = table(picture, 40, "next table", 16, NEXT)
    below = table(picture, 130, "this table", 8, THIS)
    for low, high in ((0, 8), (1, 9), (2, 2)):
        picture.line([(below(low), 128), (above(high), 75)], "arrow")
    for at, told in ((0, "copied and counted"), (2, "being copied"), (4, "calls still read and write here")):
        picture.text(below(at) - 29, 180, told, "small")
    for at, (kind, words, told) in enumerate(STATES):
        x = 40 + 150 * at
        picture.box(x, 228, 92, 32, kind)
        picture.text(x + 46, 248, words, "code", "middle")
        if at < 3:
            picture.line([(x + 94, 244), (x + 148, 244)], "arrow")
            picture.text(x + 121, 236, ["put", "prime", "finish"][at], "small", "middle")
        for line, part in enumerate(told.split(": ")):
            picture.text(x + 46, 276 + 14 * line, part, "small", "middle")
    picture.line([(86, 282), (86, 312), (536, 312), (536, 298)], "arrow")
    picture.text(300, 308, "an empty slot is closed at once", "small", "middle")
    return picture


STEPS = [
    ("look at the key's home slot", "in the table that the seat remembers", "the key's own, or empty: exchange", "made"),
    ("load the top word", "if that didn't do", "", ""),
    ("search the key's path", "in the top table", "its slot, or a claimed one: exchange", "made"),
    ("path full, or a slot primed", "install the next table; help to copy", "go up one table", ""),
    ("the last table is full of other keys", "", "refuse", "Full"),
]


def way_of_a_put():
    """What a put does, from its home slot to the last table."""
    picture = Picture(640, 36 + 62 * len(STEPS), "The way of a put",
                      "A put looks at its key's home slot and exchanges the number there, which is all that most puts do. Else it "
                      "loads the top word and searches the key's path in the top table. Where that is full, or being copied, it helps "
                      "to copy and goes up. In the last table it is refused if other keys have all slots.")
    picture.text(14, 20, "The way of a put", "head")
    for at, (what, where, then, ends) in enumerate(STEPS):
        y = 36 + 62 * at
        picture.box(14, y, 230, 44, "held" if at == 0 else "empty", 6)
        picture.text(26, y + 18, what)
        picture.text(26, y + 34, where, "small")
        if at:
            picture.line([(129, y - 18), (129, y - 2)], "arrow")
        if ends:
            picture.line([(246, y + 16), (470, y + 16)], "arrow")
            picture.text(256, y + 11, then, "small")
            picture.box(474, y, 100, 32, "primed" if ends == "Full" else "done", 6)
            picture.text(524, y + 20, ends, "", "middle")
        elif then:
            picture.line([(246, y + 22), (446, y + 22), (446, y - 34), (248, y - 34)], "arrow")
            picture.text(256, y + 16, then, "small")
    return picture
