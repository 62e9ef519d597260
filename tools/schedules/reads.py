"""255 READs under method B, run to the end, by five panels at once, with a sixth that writes; the 256th READ is 7, and a WRITE is still taken.

In each of 51 rounds, from 1, panel 5 begins a WRITE and the others begin READs. The head answers panels 0 and 1, then enters the WRITE, then answers
panels 2, 3 and 4. B's tag is the log's last one when the head answers, so round r's panels 0 and 1 read tag r - 1 and the others tag r. The WRITE
ends last in its round, so each READ overlaps just this WRITE."""

from script import Script, overlap, shown, stations

READERS, WRITER, ROUNDS = 5, 5, 51
EARLY, LATE = [0, 1], [2, 3, 4]


def write_mask(turn):
    """Every set of the three stations in turn."""
    return turn % 7 + 1


def read_mask(turn, panel):
    return (turn + 2 * panel) % 7 + 1


def badge(turn):
    """From the greatest down."""
    return 65536 - turn


def begin_all(script, turn, setpoints):
    """Gives the begin step of the WRITE, and those of the READs by panel."""
    written = " ".join(map(str, setpoints))
    began = script.say(f"W {WRITER} {write_mask(turn)} {badge(turn)} {written}", "ok")
    return began, [script.say(f"R {panel} {read_mask(turn, panel)}", "ok") for panel in range(READERS)]


def enter(script, turn):
    """The WRITE up to its entry in the log."""
    masked = stations(write_mask(turn))
    for station in masked:
        script.say(f"> {WRITER} {station}", "ok")
    for station in masked:
        script.say(f"< {WRITER} {station}", "next" if station == masked[-1] else "wait")
    script.say(f"> {WRITER} 16", "ok")


def finish(script, panel, mask, tag, values):
    """The replies of a READ's stations, the highest first; the last one ends it. Gives its end step."""
    masked = stations(mask)
    for station in masked[:0:-1]:
        script.say(f"< {panel} {station}", "wait")
    return script.say(f"< {panel} {masked[0]}", shown(tag, mask, values))


def refuse_more(script):
    """255 READs have begun. A WRITE is still taken, and gets the tag behind the last."""
    for panel in range(READERS + 1):
        script.say(f"R {panel} 7", "no 7")
    script.say("R 0 0", "no 6")
    script.say("R 0 65537", "no 6")
    script.say("R 6 1", "no 3")
    began = script.say("W 0 1 0 9 9 9", "ok")
    script.say("R 0 1", "no 5")
    script.say("> 0 0", "ok")
    script.say("< 0 0", "next")
    script.say("> 0 16", "ok")
    return began, script.say("< 0 16", f"write {ROUNDS + 1}")


def made():
    script = Script()
    before = [(10, 0, 0), (20, 0, 0), (30, 0, 0)]
    script.say("O 2 3 6 10 20 30", "ok")
    writes, reads = [], []
    for turn in range(1, ROUNDS + 1):
        setpoints = [1000 * turn + station for station in range(3)]
        # round r's WRITE is tag r
        written = [(setpoint, turn, badge(turn)) for setpoint in setpoints]
        after = [written[station] if station in stations(write_mask(turn)) else before[station] for station in range(3)]
        write_began, began = begin_all(script, turn, setpoints)
        for panel in EARLY:
            script.say(f"> {panel} 16", "ok")
        enter(script, turn)
        for panel in LATE:
            script.say(f"> {panel} 16", "ok")
        order = [(turn + place) % READERS for place in range(READERS)]
        for panel in order:
            script.say(f"< {panel} 16", "next")
            for station in stations(read_mask(turn, panel)):
                script.say(f"> {panel} {station}", "ok")
        for panel in order:
            tag, values = (turn - 1, before) if panel in EARLY else (turn, after)
            ended = finish(script, panel, read_mask(turn, panel), tag, values)
            reads.append((tag, ended, panel, began[panel]))
            if turn == ROUNDS and panel == order[0]:
                # this panel is idle again, the others still read: begun READs count, and not finished ones
                script.say(f"R {panel} 1", "no 7")
        writes.append((write_began, script.say(f"< {WRITER} 16", f"write {turn}")))
        before = after
    last = refuse_more(script)
    # a line of 606 bytes that the text ends without byte 10: no step
    script.say(b"R 0 1 " * 101, "no 13")
    script.register = register(writes, reads, last)
    return script.stdin(last_byte=b""), script.stdout()


def register(writes, reads, last):
    """By tag, its WRITE first, then its READs by begin step."""
    spans = writes + [last]
    rows = [(tag, 0, f"W {tag} {WRITER} {tag} {began} {ended} {badge(tag)}") for tag, (began, ended) in enumerate(writes, 1)]
    rows.append((ROUNDS + 1, 0, f"W {ROUNDS + 1} 0 1 {last[0]} {last[1]} 0"))
    for tag, ended, panel, began in reads:
        assert overlap(began, ended, spans) == 1
        rows.append((tag, began, f"R {tag} {panel} {began} {ended} 1"))
    return [row for _, _, row in sorted(rows)]
