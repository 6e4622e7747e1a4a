"""Whether the posts and takes of a phase can have happened in some order, and each look at a port have seen what it told.

A port is a lane, from one worker to another, or an owner's queue. Its posts have the numbers of their takes, since in the end all are
taken. One act is before another where it is earlier in its worker's script, and where a post is before the one with the next number,
before its own take, and a take before the post that gets its slot. A look that found a port full, or empty, must not stand behind what it
would have had to see then: the take that frees a slot, the post that fills one.
"""
from collections import defaultdict


class Illegal(Exception):
    """What is wrong, and at which line of the text."""


class Act:
    """What a line of a worker did to a port: "post" or "take" with a name, or "full" or "empty". `knows` has, of each worker, how many of
    its acts are before this one or are this one."""

    def __init__(self, kind, port, poster=None, name=None):
        self.kind, self.port, self.poster, self.name = kind, port, poster, name
        self.worker = self.at = self.number = self.knows = None


def check(scripts, drains, capacity):
    """Raises Illegal where the acts of workers in their threads, and then in their last drains, are none of ports with that capacity."""
    posts, takes = defaultdict(dict), defaultdict(list)
    for acts in scripts + drains:
        for act in acts:
            if act.kind in ("take", "empty"):
                act.number = len(takes[act.port])
            if act.kind == "take":
                takes[act.port].append(act)
    number_posts(scripts, posts, takes)
    for port, taken in takes.items():
        if len(posts[port]) != len(taken):
            raise Illegal(f"a take from {port} of what nobody posted")
    advance(scripts, posts, takes, capacity)
    for acts in scripts:
        for act in acts:
            if act.kind == "full":
                check_full(act, posts[act.port], takes[act.port], capacity)
            if act.kind == "empty":
                check_empty(act, posts[act.port])


def number_posts(scripts, posts, takes):
    """Gives each post the number of its take: a poster's posts to a port are taken in their order, and each once."""
    for worker, acts in enumerate(scripts):
        used = defaultdict(int)
        for at, act in enumerate(acts):
            act.worker, act.at = worker, at
            if act.kind == "post":
                own = [take for take in takes[act.port] if take.poster == worker]
                if used[act.port] == len(own) or own[used[act.port]].name != act.name:
                    raise Illegal(f"post {used[act.port]} of worker {worker} to {act.port} isn't what is taken")
                act.number = own[used[act.port]].number
                posts[act.port][act.number] = act
                used[act.port] += 1


def advance(scripts, posts, takes, capacity):
    """Makes the acts of all threads in some order, and tells each what is before it. No act hinders another worker's."""
    at = [0] * len(scripts)
    moved = True
    while moved:
        moved = False
        for worker, acts in enumerate(scripts):
            while at[worker] < len(acts):
                act = acts[at[worker]]
                before = acts_before(act, posts, takes, capacity)
                if any(it.knows is None for it in before):
                    break
                if at[worker] > 0:
                    before.append(acts[at[worker] - 1])
                act.knows = [max(known) for known in zip([0] * len(scripts), *(it.knows for it in before))]
                at[worker] += 1
                act.knows[worker] = at[worker]
                moved = True
    for worker, acts in enumerate(scripts):
        if at[worker] < len(acts):
            raise Illegal(f"worker {worker} can't make its {acts[at[worker]].kind} at {acts[at[worker]].port} in any order")


def acts_before(act, posts, takes, capacity):
    """The acts at its port right before a post or a take."""
    if act.kind == "take":
        return [posts[act.port][act.number]]
    if act.kind != "post":
        return []
    before = [posts[act.port][act.number - 1]] if act.number > 0 else []
    if act.number >= capacity:
        before.append(takes[act.port][act.number - capacity])
    return before


def check_full(look, posts, takes, capacity):
    """Behind the takes that it knows there were as many posts as the port holds, none of them behind the look."""
    known = sum(take.knows is not None and look.knows[take.worker] > take.at for take in takes)
    can_be = sum(post.knows[look.worker] <= look.at for post in posts.values())
    if known + capacity > can_be:
        raise Illegal(f"worker {look.worker} is told Full at {look.port}, which held {can_be - known} posts at most")


def check_empty(look, posts):
    """It knows no post that is taken later. `number` has how many were taken before."""
    if look.number in posts and look.knows[posts[look.number].worker] > posts[look.number].at:
        raise Illegal(f"worker {look.worker} finds {look.port} empty, and knows of a post in it")
