"""What the operator's desk replies to a raise of a mirror's budget."""

import re

WORD = b"raise "
NUMBER = re.compile("0|[1-9][0-9]*")
MOST = 2**60
LINE = re.compile(rb"raised [^ \n]+ [0-9]+\n|refused B1 UnknownMirror\n|refused B2 TooHigh\n|refused B3 Lower [0-9]+\n|bad raise\n")


def parts_of(body):
    """The name and the digits of a body that begins with the word; none if it is no valid raise."""
    try:
        line = body[len(WORD) :].decode()
    except UnicodeDecodeError:
        return None
    name, space, digits = line.removesuffix("\n").partition(" ")
    valid = name and space and "\n" not in name and NUMBER.fullmatch(digits)
    return (name, digits) if valid else None


def reply_to(body, budgets):
    """The status and the line for a body that begins with the word; a raise changes the budgets."""
    parts = parts_of(body)
    if parts is None:
        return 400, b"bad raise\n"
    name, digits = parts
    # (a number of thousands of digits is above the limit without being read)
    number = int(digits) if len(digits) < 30 else MOST + 1
    if name not in budgets:
        return 422, b"refused B1 UnknownMirror\n"
    if number > MOST:
        return 422, b"refused B2 TooHigh\n"
    if number < budgets[name]:
        return 422, b"refused B3 Lower %d\n" % budgets[name]
    budgets[name] = number
    return 200, f"raised {name} {digits}\n".encode()
