"""The files of some worked examples, as scripts of this folder run the program over them."""

HEAD = "server,type,rack,switchboard,datacenter\n"
UNBOUND = "server,reservation,busy,up\n"


def inventory(*places):
    """The inventory of servers s1, s2, .. of type `t`, each on the rack and the switchboard of these numbers."""
    lines = [f"s{at},t,k{rack},m{board},d1\n" for at, (rack, board) in enumerate(places, 1)]
    return HEAD + "".join(lines)


def requests(take, reservations):
    """The text of requests with this cost of a server that is taken, 5 of an idle and 50 of a busy one."""
    return f'{{"format":1,"moves":{{"take":{take},"idle":5,"busy":50}},"reservations":[{reservations}]}}'


def document(parts, gap=0):
    """The text of a plan over classes with this wanted gap and these parts, which begin with the region part."""
    top = f'"answer":"plan","format":1,"gap":{gap},"grouping":"class","nodes":100,"racks":4'
    return f'{{{top},"region":{parts}}}\n'


def part(assigned, gap, lower, tree, value, chosen=""):
    """A part that gives servers of these numbers to `a`."""
    given = ",".join(f'"s{at}":"a"' for at in assigned)
    return f'{{"assignment":{{{given}}},{chosen}"gap":{gap},"lower":{lower},"tree":{tree},"value":{value}}}'


SIX = {
    "inventory": inventory((1, 1), (1, 1), (2, 2), (2, 2), (3, 3), (3, 3)),
    "requests": requests(1, '{"name":"a","need":40,"values":{"t":10}}'),
    "bindings": UNBOUND,
    "plan": document(part(range(1, 7), 0, 6, '[["bound",20,[7,1,8,1,9,1]]]', 6)),
}

THREE = {
    "inventory": inventory((1, 1), (2, 2), (3, 3)),
    "requests": requests(2, '{"name":"a","need":1,"values":{"t":1}}'),
    "bindings": UNBOUND,
    "plan": document(
        part((1, 2), 0, 4, '[["split",0,0,1,2],["bound",1,[8,2,9,2]],["bound",1,[7,2]]]', 4)
    ),
}

RACKS = {
    "inventory": inventory((1, 1), (1, 1), (2, 1), (2, 1), (3, 2), (3, 2), (4, 2), (4, 2))
    + "s9,u,k5,m2,d1\n",
    "requests": requests(
        1,
        '{"name":"a","need":2,"rack_limit":1,"rack_weight":3,"values":{"t":1}},'
        '{"name":"b","need":0,"values":{"u":1}}',
    ),
    "bindings": UNBOUND,
    "plan": document(
        part((1, 2, 5, 6), 0, 4, '[["bound",1,[7,1,8,1]]]', 4)
        + ',"rack":'
        + part((1, 3, 5, 7), 0, 4, '[["bound",1,[9,1,10,1]]]', 4, '"chosen":["a"],')
    ),
    "events": "at,event,server\n0,tick,\n1,joined,s1\n2,joined,s3\n3,joined,s5\n3,joined,s5\n4,joined,s7\n",
    "failures": "at,event,server\n0,fail,s1\n1,fail,s9\n2,repair,s1\n2,repair,s1\n",
}

FOUR = {
    "inventory": inventory((1, 1), (2, 2), (3, 3), (1, 1)),
    "requests": requests(1, '{"name":"a","need":10,"values":{"t":5}}'),
    "bindings": UNBOUND + "s1,a,0,1\ns2,a,0,1\ns3,a,0,1\n",
    "plan": document(part((2, 3, 4), 6, 0, '[["bound",1,[]]]', 6), gap=6),
    "events": "at,event,server\n0,tick,\n1,joined,s4\n2,joined,s4\n3,drained,s1\n",
    "failures": "at,event,server\n0,fail,s4\n1,fail,s2\n2,fail,s2\n3,repair,s4\n",
}

CLASH = {
    "inventory": SIX["inventory"],
    "requests": requests(
        1,
        '{"name":"a","need":40,"values":{"t":10}},{"name":"b","need":10,"values":{"t":10}},'
        '{"name":"c","need":0,"values":{"t":10}}',
    ),
    "bindings": UNBOUND,
}

THREE_FILES = ["inventory", "requests", "bindings"]
LINES = {
    "check": ["check", *THREE_FILES, "plan"],
    "solve": ["solve", *THREE_FILES],
    "move": ["move", *THREE_FILES, "plan", "events"],
    "spare": ["spare", *THREE_FILES, "plan", "failures"],
    "core": ["core", *THREE_FILES],
    "sample": ["sample", "7", "3"],
}

# By name: the files, the commands, and how each ends: its status, and the front of what it prints.
ROWS = {
    "six servers, all taken": (SIX, {"check": (0, "yes plan\n"), "solve": (0, '{"answer":"plan"')}),
    "three servers, one split": (THREE, {"check": (0, "yes plan\n"), "solve": (0, '{"answer":"plan"')}),
    "racks evened out": (RACKS, {"check": (0, "yes plan\n"), "solve": (0, '{"answer":"plan"')}),
    "bind first, drain later": (FOUR, {"move": (0, "0,bind,s4,a\n")}),
    "pool of one type": (FOUR, {"spare": (0, "0,replace,s4,a,s1\n")}),
    "core of two": (CLASH, {"core": (0, "core a b\n")}),
    "sample of twelve servers": ({}, {"sample": (0, "servers 12\n")}),
}
