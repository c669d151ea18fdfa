"""A drill of 2,502 calls of one node in pieces of a thousand, as a program writes them that keeps none."""

HEAD = '{"failreg":"drill","version":2}'
SET = '{"ask":["set","a","3*off"],%s"reply":["set",1,0],"words":[]}'
ACT = '{"ask":["pass","a"],%s"reply":["act",1,0,0,["off"]],"words":[]}'
NONE = '{"ask":["pass","a"],%s"reply":["none",1,0],"words":[]}'
CALLS = [SET, ACT, ACT, ACT] + [NONE] * 2498


def piece(part, start, lines):
    return [f'{{"from":{start},"{part}":0}}', *lines]


def script():
    lines = [HEAD]
    for start in range(0, len(CALLS), 1000):
        calls = CALLS[start : start + 1000]
        lines += piece("trace", start, [call % "" for call in calls])
        places = [f'"index":{start + place},"node":0,' for place in range(len(calls))]
        lines += piece("list", start, [call % place for call, place in zip(calls, places)])
    return ("\n".join(lines) + "\n").encode()


def output():
    return b"audit yes\nbudget a 1.0 0 count=3 executed=3\n"
