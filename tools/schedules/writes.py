"""255 WRITEs under method C, run to the end, by five panels at once; the 256th is 7. Then a READ of all stations.

In each of 51 rounds the five panels begin together, all setpoints arrive, all acknowledgements, and then the five entries at the head, the
panels in an order that turns by one each round. So in round r, from 0, the WRITE whose entry is delivered as the j-th, from 0, is tag 5 r + j + 1:
"WRITEs are tagged 1, 2, 3 and so on in the order in which their requests at target 16 were first delivered". A panel's count is the round, from 1.

Station 0 is in every mask, so that it ends with 256 versions, and the log with 256 entries. There, full, both are asked again: in the last
round the replies of station 0 and of the head are lost, and what they answered is sent again; at station 0 in the first round too. The press has the most stations and panels that there can be,
and the text is longer than 65,536 bytes."""

from script import Script, overlap, shown, stations

STATIONS, ROUNDS = 16, 51
PANELS = [0, 4, 8, 12, 15]
AT_ONCE = len(PANELS)
LAST = AT_ONCE * ROUNDS
ALL = 2**STATIONS - 1


def mask_of(number):
    """Station 0 and others, differently for each WRITE."""
    return 1 | number * 40503 & ALL


def setpoints_of(number):
    """Ten digits each, and no two alike."""
    return [4294967295 - STATIONS * number - station for station in range(STATIONS)]


def badge_of(number):
    """No two alike, and the last is the greatest: 65,535."""
    return 257 * number


def begin(panel, mask, badge, setpoints):
    return " ".join(str(word) for word in ["W", panel, mask, badge, *setpoints])


def deliver_setpoints(script, panel, mask):
    for station in stations(mask):
        script.say(f"> {panel} {station}", "ok")


def deliver_acknowledgements(script, panel, mask):
    """The last acknowledgement sends the entry: *next*."""
    last = stations(mask)[-1]
    for station in stations(mask):
        script.say(f"< {panel} {station}", "next" if station == last else "wait")


def send_again(script, panel, target):
    """The reply is lost, and its request is sent again and arrives. "A station that holds the key already acknowledges without storing; a
    head that has it answers its first tag; both also when full." """
    for letter in "!+>":
        script.say(f"{letter} {panel} {target}", "ok")


def refuse_more(script):
    """All 255 have begun, whoever asks; a lower number comes first where there is one."""
    for panel in range(16):
        script.say(begin(panel, 1, panel, setpoints_of(256)), "no 7")
    script.say(begin(0, 0, 0, setpoints_of(256)), "no 6")
    script.say(begin(0, 65537, 0, setpoints_of(256)), "no 6")
    script.say(begin(0, 1, 0, setpoints_of(256)[1:]), "no 6")
    script.say(begin(16, 1, 0, setpoints_of(256)), "no 3")


def read_all(script, panel, tag, values):
    """A READ of all stations: 7 is not for READs while none has begun. Gives its begin and end step."""
    began = script.say(f"R {panel} {ALL}", "ok")
    script.say(begin(panel, 1, 0, setpoints_of(256)), "no 5")
    targets = [*range(STATIONS), 16]
    for target in targets:
        script.say(f"> {panel} {target}", "ok")
    for target in targets[:-1]:
        script.say(f"< {panel} {target}", "wait")
    return began, script.say(f"< {panel} {targets[-1]}", shown(tag, ALL, values))


def made():
    script = Script()
    values = [(1000 + station, 0, 0) for station in range(STATIONS)]
    script.say(f"O 3 {STATIONS} 16 " + " ".join(str(setpoint) for setpoint, _, _ in values), "ok")
    spans, rows = [], []
    for turn in range(ROUNDS):
        numbers = {panel: AT_ONCE * turn + place + 1 for place, panel in enumerate(PANELS)}
        masks = {panel: mask_of(numbers[panel]) for panel in PANELS}
        lines = {panel: begin(panel, masks[panel], badge_of(numbers[panel]), setpoints_of(numbers[panel])) for panel in PANELS}
        begun = {panel: script.say(lines[panel], "ok") for panel in PANELS}
        for panel in PANELS:
            deliver_setpoints(script, panel, masks[panel])
        # the versions that station 0 holds now
        full = AT_ONCE * (turn + 1) + 1 == 256
        # in the first round too: stored twice, it would leave no place for the last
        for panel in PANELS if full or turn == 0 else []:
            send_again(script, panel, 0)
        for panel in reversed(PANELS):
            deliver_acknowledgements(script, panel, masks[panel])
        entered = [PANELS[(turn + place) % AT_ONCE] for place in range(AT_ONCE)]
        tags = {panel: AT_ONCE * turn + place + 1 for place, panel in enumerate(entered)}
        for panel in entered:
            script.say(f"> {panel} 16", "ok")
            # the row: each WRITE in the order of tags sets its stations' values
            for station in stations(masks[panel]):
                values[station] = (setpoints_of(numbers[panel])[station], tags[panel], badge_of(numbers[panel]))
        for panel in PANELS if full else []:
            send_again(script, panel, 16)
        for panel in PANELS:
            ended = script.say(f"< {panel} 16", f"write {tags[panel]}")
            spans.append((begun[panel], ended))
            rows.append((tags[panel], f"W {tags[panel]} {panel} {turn + 1} {begun[panel]} {ended} {badge_of(numbers[panel])}"))
            if turn == ROUNDS - 1 and panel == PANELS[0]:
                # this panel has ended, the others have not: begun WRITEs count, and not finished ones
                script.say(begin(panel, 1, 0, setpoints_of(256)), "no 7")
    refuse_more(script)
    began, ended = read_all(script, 2, LAST, values)
    # by tag; the READ's tag is the last, so that it stands behind all
    script.register = [row for _, row in sorted(rows)]
    script.register.append(f"R {LAST} 2 {began} {ended} {overlap(began, ended, spans)}")
    return script.stdin(), script.stdout()
