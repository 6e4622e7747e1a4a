"""Cases of order.py, by hand: acts of workers, and whether some order of them is that of lanes or of queues.

`1>0` is from worker 1 to worker 0. What is taken after the threads is told by worker 0's last drain, whosoever it is.
"""
from judge import order
from judge.order import Act, Illegal

BOTH, LANES, QUEUES, NONE = (False, True), (False,), (True,), ()

# What it shows, the capacity, where it is legal, the acts of each worker's thread, and the last takes.
CASES = [
    ("a post, and its take after the threads", 1, BOTH, ["post 0>1 a", ""], "take 0>1 a"),
    ("a post without a take", 1, NONE, ["post 0>1 a", ""], ""),
    ("a take without a post", 1, NONE, ["", ""], "take 0>1 a"),
    ("two posts taken in order", 2, BOTH, ["post 0>1 a, post 0>1 b", ""], "take 0>1 a, take 0>1 b"),
    ("two posts where one is overtaken", 2, NONE, ["post 0>1 a, post 0>1 b", ""], "take 0>1 b, take 0>1 a"),
    ("more posts than there is room for", 1, NONE, ["post 0>1 a, post 0>1 b", ""], "take 0>1 a, take 0>1 b"),
    ("room made by a take", 1, BOTH, ["post 0>1 a, post 0>1 b", "take 0>1 a"], "take 0>1 b"),
    ("two takes, each before the other's post", 1, NONE, ["take 1>0 a, post 0>1 b", "take 0>1 b, post 1>0 a"], ""),
    ("full after as many posts as there is room for", 1, BOTH, ["post 0>1 a, full 0>1", "take 0>1 a"], ""),
    ("full at once", 1, NONE, ["full 0>1, post 0>1 a", ""], "take 0>1 a"),
    ("full after a take that it knows of", 1, NONE, ["post 0>1 a, take 1>0 b, full 0>1", "take 0>1 a, post 1>0 b"], ""),
    ("full beside a take that comes later", 1, BOTH, ["post 0>1 a, take 1>0 b, full 0>1", "post 1>0 b, take 0>1 a"], ""),
    ("full by another's post", 1, QUEUES, ["post 0>2 a", "full 1>2", ""], "take 0>2 a"),
    ("full before another's post", 1, NONE, ["take 1>0 b, post 0>2 a", "full 1>2, post 1>0 b", ""], "take 0>2 a"),
    ("empty beside a post", 1, BOTH, ["post 0>1 a", "empty 0>1"], "take 0>1 a"),
    (
        "empty after a post that it knows of",
        1,
        NONE,
        ["post 0>1 a, post 0>2 b", "take 2>1 c, empty 0>1", "take 0>2 b, post 2>1 c"],
        "take 0>1 a",
    ),
    (
        "empty beside a post after one that it knows of",
        2,
        BOTH,
        ["post 0>2 b, post 0>1 a", "take 2>1 c, empty 0>1", "take 0>2 b, post 2>1 c"],
        "take 0>1 a",
    ),
    (
        "two posters, the later one taken first",
        2,
        LANES,
        ["post 0>2 a, post 0>1 x", "take 0>1 x, post 1>2 b", ""],
        "take 1>2 b, take 0>2 a",
    ),
    ("two posters, either taken first", 2, BOTH, ["post 0>2 a", "post 1>2 b", ""], "take 1>2 b, take 0>2 a"),
]


def acts_in(text, over_queues):
    for act in filter(None, text.split(", ")):
        kind, way, *name = act.split(" ")
        poster, owner = way.split(">")
        yield Act(kind, owner if over_queues else way, int(poster), *name)


def failures():
    """The cases that are judged otherwise."""
    for what, capacity, legal, scripts, last in CASES:
        for over_queues in BOTH:
            try:
                order.check([list(acts_in(it, over_queues)) for it in scripts], [list(acts_in(last, over_queues))], capacity)
                found = True
            except Illegal:
                found = False
            if found != (over_queues in legal):
                yield f"{what}, over {'queues' if over_queues else 'lanes'}: judged {'legal' if found else 'illegal'}"
