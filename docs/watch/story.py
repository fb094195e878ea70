"""The small run that ../watch.html plays: its calls, and in which order the workers make their steps."""

WORKERS = "ABC"
# The words of the program: three tables of 4, 8 and 16 slots, and four slots are handed out at once to be copied.
OPTIONS = ["--seats", "3", "--plan", "2,3,4", "--chunk", "4"]
EXPONENTS = (2, 3, 4)
CHUNK = 4

# Phases: the calls, at most one a worker, and then parts, each with a title, what is told of it, and the moves of the workers. In a move
# `A` makes one step, `A*` all that are left of its call, and `A:prime` those up to its next step of this name, or load of this word. Of
# a phase's workers the first one may not be the last to come to its end.
STORY = [
    (
        {"A": "put 0 10", "B": "put 4 14", "C": "put 8 18"},
        (
            "Three puts meet",
            "Three keys have the same home, slot 0 of table 0, and are put at the same time. A slot is claimed for a key by one"
            " compare-and-swap, for good; a second one puts the key's number there.",
            "A B A:claim B:claim A* B* C*",
        ),
    ),
    (
        {"A": "get 0", "B": "put 4 24", "C": "put 12 22"},
        (
            "The table is crowded",
            "Key 12 has the same home, and three other keys are on its path: the limit in a table of four slots. So C installs table 1,"
            " and begins to copy table 0. It primes the first number, and then stands still for a while.",
            "C:prime",
        ),
        (
            "A read helps",
            "Nobody waits for C. A finds its key's number primed, and finishes the copy of this slot before it goes on in table 1.",
            "A*",
        ),
        (
            "A write comes late",
            "B has found 14 at its key. But before it puts 24 there, C goes on and primes the 14.",
            "B:value C:prime",
        ),
        (
            "A write helps",
            "B's compare-and-swap fails, since the value isn't what it was. So B copies the 14, and puts 24 over it in table 1.",
            "B*",
        ),
        (
            "A copy never overwrites",
            "C, too, has the 14 in hand, and still means to copy it. But a copy is put over null alone, so B's 24 stays.",
            "C:copy C:finish",
        ),
        (
            "The top word rises",
            "C copies key 8, and closes the empty slot. What a worker finished, it counts. The one that counts the last slot"
            " raises the top word: who loads it from now on begins in table 1. There C puts its own key.",
            "C*",
        ),
    ),
    (
        {"A": "add 0 5", "B": "add 0 7", "C": "remove 8"},
        (
            "Two adds at one key",
            "A and B both find 10. One compare-and-swap wins; the other fails, finds 15, and is made again with that. So no add is lost.",
            "A:value B:value A* B*",
        ),
        (
            "A removal",
            "A removed key keeps its slot. Its value becomes a tombstone.",
            "C*",
        ),
    ),
    (
        {"A": "put 16 26", "B": "put 24 34"},
        (
            "Table 1 fills up",
            "The home of the keys 16 and 24 in table 1 is slot 0, too.",
            "A* B*",
        ),
    ),
    (
        {"A": "get 8", "B": "put 40 50", "C": "put 32 42"},
        (
            "A worker stands still",
            "For key 32 table 1 is crowded. C installs table 2, takes four slots of table 1 to copy, primes the first, and stands still.",
            "C:prime",
        ),
        (
            "Another one copies",
            "B has a new key, and finds a table 2. So table 1 has to be complete before B puts it there. B takes the other four slots.",
            "B:count",
        ),
        (
            "It does C's part, too",
            "No slots are left to take, but table 1 isn't complete. B can't know whether C ever goes on, and so does its slots, too."
            " Key 8 was removed: its tombstone is primed, and not copied. A looks for this key meanwhile.",
            "B:count B:count A* B:promote B*",
        ),
        (
            "The one that stood still",
            "C goes on, and finds all of it done: its copy changes nothing. It puts its key into table 2.",
            "C*",
        ),
    ),
]
