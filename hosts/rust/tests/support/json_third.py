"""Says of texts whether Python takes them for JSON.

Each text comes on the standard input behind its length, four bytes with the least significant first.
The length 2^32 - 1 ends a round: then a letter for each of its texts is written.

j  it is JSON
n  it is not
u  it is not UTF-8
c  Python takes it, but for NaN, Infinity or -Infinity, which JSON has not
d  it nests deeper than Python reads
i  it has a number with more digits than Python reads
"""

import json
import sys


def letter(text):
    constants = []
    try:
        json.loads(text.decode("utf-8"), parse_constant=constants.append)
    except UnicodeDecodeError:
        return "u"
    except json.JSONDecodeError:
        return "n"
    except RecursionError:
        return "d"
    except ValueError:
        return "i"
    return "c" if constants else "j"


def main():
    letters = []
    while True:
        head = sys.stdin.buffer.read(4)
        if not head:
            return
        length = int.from_bytes(head, "little")
        if length == 0xFFFFFFFF:
            sys.stdout.write("".join(letters))
            sys.stdout.flush()
            letters = []
        else:
            letters.append(letter(sys.stdin.buffer.read(length)))


main()
