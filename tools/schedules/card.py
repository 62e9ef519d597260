"""Reads a card: a schedule beside its answers. A line is `schedule line => answer`; behind the line `register` come the register's.
What stands behind ` #`, and a line that begins with `#`, is a comment. What stands ahead of a line `saved` was played by an earlier version,
whose tables the rest is played on: it is a schedule of its own, without a register."""

from script import Script


def scripts(path):
    """The scripts of a card, one more than it has lines `saved`."""
    found = [Script()]
    in_register = False
    for row in path.read_text().splitlines():
        row = "" if row.startswith("#") else row.split(" #")[0].rstrip()
        if row == "":
            continue
        if row == "saved":
            found.append(Script())
        elif row == "register":
            in_register = True
        elif in_register:
            found[-1].register.append(row)
        else:
            line, answer = row.split("=>")
            found[-1].say(line.rstrip(), answer.strip())
    return [(script.stdin(), script.stdout()) for script in found]


def read(path):
    """The one script of a card."""
    (script,) = scripts(path)
    return script
