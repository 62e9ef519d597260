"""Loads: document 02, E2, worked out from its words on a press of document 01.

The press here knows no setpoints, keys, tags or badges. In a run from an opening they refuse no step: a station gets at most 255 versions
behind the opening's and the log as many entries, so that none is full; a key that is asked for is held; and the steps do not come near
2^32. So what is acceptable goes by who is idle, how many have begun and what is on the links."""

HEAD = 16
MOST_BEGUN = 255
NOTHING, REQUEST, REPLY = range(3)


def advance(seed):
    """ "From a 32-bit seed the load advances by times 1,664,525 plus 1,013,904,223, modulo 2^32" """
    return (seed * 1664525 + 1013904223) % 2**32


class Press:
    """A press of k stations and p panels, behind its opening."""

    def __init__(self, method, k, p):
        self.method, self.k, self.p = method, k, p
        self.counts = [0] * p
        self.reads = 0
        self.links = [[NOTHING] * (HEAD + 1) for _ in range(p)]
        # of each panel the rounds of requests that are still to be sent
        self.rounds = [[] for _ in range(p)]

    def idle(self, panel):
        return all(link == NOTHING for link in self.links[panel])

    def may_write(self, panel):
        return self.idle(panel) and sum(self.counts) < MOST_BEGUN

    def may_read(self, panel):
        return self.idle(panel) and self.reads < MOST_BEGUN

    def acceptable(self):
        """ "WRITEs to all stations by panel, READs of all by panel, then requests, then replies, by panel and target" """
        panels, targets = range(self.p), range(HEAD + 1)
        steps = [("W", panel, None) for panel in panels if self.may_write(panel)]
        steps += [("R", panel, None) for panel in panels if self.may_read(panel)]
        steps += [(">", panel, target) for panel in panels for target in targets if self.links[panel][target] == REQUEST]
        steps += [("<", panel, target) for panel in panels for target in targets if self.links[panel][target] == REPLY]
        return steps

    def send(self, panel):
        for target in self.rounds[panel].pop(0):
            self.links[panel][target] = REQUEST

    def take(self, letter, panel, target):
        """Takes an acceptable step, and gives its line."""
        stations, everywhere = list(range(self.k)), 2**self.k - 1
        if letter == "W":
            self.counts[panel] += 1
            self.rounds[panel] = [stations, [HEAD]]
            self.send(panel)
            # "A WRITE's setpoints are all its count"; of badges "the load gives 0"
            return " ".join(map(str, ["W", panel, everywhere, 0, *[self.counts[panel]] * self.k]))
        if letter == "R":
            self.reads += 1
            # B asks the head and then the stations; C all together
            self.rounds[panel] = {2: [[HEAD], stations], 3: [[*stations, HEAD]]}[self.method]
            self.send(panel)
            return f"R {panel} {everywhere}"
        # "Each delivery moves one link: request to reply, or reply to nothing."
        self.links[panel][target] = REPLY if letter == ">" else NOTHING
        if self.idle(panel) and self.rounds[panel]:
            self.send(panel)
        return f"{letter} {panel} {target}"


def made(seed, length, method, k, p):
    """The opening's line, with setpoints 0, and those of the load."""
    press = Press(method, k, p)
    lines = [" ".join(map(str, ["O", method, k, p, *[0] * k]))]
    while len(lines) <= length and (acceptable := press.acceptable()):
        # "Each pick first advances; the new number, divided by 65,536, times the count of acceptable steps, divided by 65,536 again, both
        # rounded down, picks the step."
        seed = advance(seed)
        lines.append(press.take(*acceptable[seed // 65536 * len(acceptable) // 65536]))
    return lines


# The worked example: method B, k 2, p 2, the first twelve steps from seed 0.
EXAMPLE = [
    "O 2 2 2 0 0", "W 0 3 0 1 1", "R 1 3", "> 1 16", "< 1 16", "> 0 1", "> 1 1",
    "> 1 0", "< 1 0", "< 0 1", "< 1 1", "> 0 0", "< 0 0",
]

# The line asked for, and what is printed where it is no load.
ASKED = {
    "example": ("0 12 2 2 2", None),
    "nothing": ("5 0 3 2 2", None),
    "cut": ("7 500 2 4 4", None),
    "most": ("4294967295 400 3 16 16", None),
    "b-to-its-end": ("2 4294967295 2 1 2", None),
    "c-to-its-end": ("3 100000 3 1 2", None),
    "refused": ("0 10 3 17 1", "no 1"),  # k to 16
    "method-1": ("1 4294967295 1 1 2", "no 1"),  # "An opening with method 1 returns 1"
    "method-1-alone": ("0 0 1 1 1", "no 1"),
    "leading-zero": ("07 10 2 1 2", "no 13"),
    "four-numbers": ("7 10 2 1", "no 13"),
    "beyond-32-bits": ("4294967296 10 2 1 2", "no 13"),
}


def files():
    """Of each load its name, the text that asks for it, and what is printed."""
    assert advance(0) == 0x3C6EF35F
    assert made(0, 12, 2, 2, 2) == EXAMPLE
    for name, (line, refused) in ASKED.items():
        lines = [refused] if refused else made(*map(int, line.split()))
        if name.endswith("to-its-end"):
            # 255 WRITEs and 255 READs of one station: 5 steps each
            assert len(lines) == 1 + 255 * 5 + 255 * 5
        yield name, f"{line}\n".encode(), "".join(f"{line}\n" for line in lines).encode()
