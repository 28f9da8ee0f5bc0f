#!/usr/bin/env python3
"""cases.py CASE[:SIZE] COUNT: writes the input of a case, with so many units of its work, in a setting of that size."""
import struct
import sys

DIRECTORY, READ, WATCH, START, END, INTRODUCE, RELEASE, WRITE, MKDIR, RM, SET_PERMS = 1, 2, 4, 6, 7, 8, 9, 11, 12, 13, 14


def message(kind, payload, req=0, tx=0):
    return struct.pack("<IIII", kind, req, tx, len(payload)) + payload


def ask(domid, kind, payload, turns=1, tx=0):
    print("send %d %s" % (domid, message(kind, payload, tx=tx).hex()))
    print("serve %d\n" % domid * turns, end="")


def domains(domids):
    for d in domids:
        print("domain %d at 0" % d)


# Bytes of messages.


def long_values(count):
    """Values of 4000 bytes, written and read by turns; a unit is a request."""
    for i in range(count // 2):
        ask(0, WRITE, b"/a\0" + b"x" * 4000, 4)
        ask(0, READ, b"/a\0", 4)


def writes(count):
    for i in range(count):
        print("send 0", message(WRITE, b"/a\0" + b"x" * 81, i).hex())


def bytewise(count):
    """WRITEs of 100 bytes whose bytes go one at a time; each message is 240 events."""
    for i in range(count):
        writes(1)
        print("put 0 1\nintake 0 1\n" * 100 + "do 0\n" + "out 0 1\ntake 0 1\n" * 19, end="")


def pieces(count):
    """The same in pieces of 1000 bytes; each message is 5 events and a tenth."""
    writes(count)
    for i in range(count):
        print(("put 0 1000\n" if i % 10 == 0 else "") + "intake 0 1000\ndo 0\nout 0 1000\ntake 0 1000")


def waiting(count, size):
    """`out 0 1` and `take 0 1` by turns, where so many bytes of eight replies of 3772 bytes wait."""
    print("send 0 " + message(WRITE, b"/a\0" + b"x" * 3756).hex())
    print("serve 0\n" * 5, end="")
    for i in range(8):
        print("send 0 " + message(READ, b"/a\0", i).hex())
        print("put 0 1024\nintake 0 4112\ndo 0")
    left = 8 * 3772
    while left > size:
        step = min(1024, left - size)
        print("out 0 %d\ntake 0 1024" % step)
        left -= step
    print("out 0 1\ntake 0 1\n" * count, end="")


# Nodes.


def mixed_nodes(count):
    """Names in a mixed order: the first half of the requests write them, the second half read them in another order."""
    half = count // 2
    for i in range(half):
        name = b"/node%06d" % (i * 7919 % half)
        ask(0, WRITE, name + b"\0value of " + name)
    for i in range(half):
        ask(0, READ, b"/node%06d\0" % (i * 104729 % half))


def host_nodes(count):
    """The same of the paths that a host with many devices has, in their order."""
    half = count // 2
    for i in range(half):
        ask(0, WRITE, b"/local/domain/%d/device/vif/%d/state\x004" % (i // 10, i % 10))
    for i in range(half):
        ask(0, READ, b"/local/domain/%d/device/vif/%d/state\0" % (i // 10, i % 10))


def folders(size):
    """So many nodes in 100 folders, and a folder of 100 nodes beside them."""
    each = size // 100
    name = lambda k: b"/folder%02d/node%04d" % (k // each, k % each)
    for i in range(size):
        ask(0, WRITE, name(i * 7919 % size) + b"\0value")
    for i in range(100):
        ask(0, WRITE, b"/hundred/node%04d\0value" % (i * 37 % 100))
    return name


def folder_read(count, size):
    name = folders(size)
    for i in range(count):
        ask(0, READ, name(i * 104729 % size) + b"\0")


def folder_directory(count, size):
    folders(size)
    for i in range(count):
        ask(0, DIRECTORY, b"/hundred\0")


def folder_mkdir(count, size):
    folders(size)
    for i in range(count):
        ask(0, MKDIR, b"/folder%02d/new\0" % i)


def folder_rm(count, size):
    """All folders, if any; a unit is a node."""
    folders(size)
    for i in range(100 if count else 0):
        ask(0, RM, b"/folder%02d\0" % i)


def absent(count, size):
    for i in range(count):
        ask(0, READ, b"/a" * size + b"\0", 1 + size // 512)


def long_directory(count, size):
    for i in range(size):
        ask(0, MKDIR, b"/d/%05d\0" % i)
    for i in range(count):
        ask(0, DIRECTORY, b"/d\0")


# Domains.


def domain_read(count, size):
    """READ by a guest among so many; their domids have as many digits, so that lines are as long."""
    domains(range(10001, 10001 + size))
    ask(0, WRITE, b"/a\0value")
    ask(0, SET_PERMS, b"/a\0r0\0")
    for i in range(count):
        ask(10001 + size // 2, READ, b"/a\0")


def come_and_go(count, domid):
    for i in range(count):
        ask(0, INTRODUCE, b"%d\x001\x001\0" % domid)
        ask(0, RELEASE, b"%d\0" % domid)


def domain_highest(count, size):
    domains(range(10001, 10001 + size))
    come_and_go(count, 32751)


def domain_lowest(count, size):
    """The lowest domid, whose connection has the highest id."""
    domains([*range(2, size + 1), 1])
    ask(0, RELEASE, b"1\0")
    come_and_go(count, 1)


def domain_lowest_id(count, size):
    """The lowest domid, whose connection has the lowest id."""
    domains(range(1, size + 1))
    ask(0, RELEASE, b"1\0")
    come_and_go(count, 1)


# Transactions.


def flat_nodes(size):
    for i in range(size):
        ask(0, WRITE, b"/node%06d\0value" % (i * 7919 % size))


def short_transactions(count, size):
    """START, READ of one node among so many, and END; a unit is the three."""
    flat_nodes(size)
    for i in range(count):
        ask(0, START, b"\0")
        ask(0, READ, b"/node%06d\0" % (i * 104729 % size), tx=1)
        ask(0, END, b"T\0", tx=1)


def empty_transactions(count, size):
    """START and END in a store of so many nodes and one."""
    flat_nodes(size)
    for i in range(count):
        ask(0, START, b"\0")
        ask(0, END, b"F\0", tx=1)


def long_transaction(count):
    """WRITEs of new nodes in one transaction, and its END; a unit is a request."""
    if count:
        ask(0, START, b"\0")
    for i in range(count):
        ask(0, WRITE, b"/node%06d\0value" % (i * 7919 % count), tx=1)
    if count:
        ask(0, END, b"T\0", tx=1)


def beside_open(count, size):
    """WRITEs of a node outside of transactions, while so many are open that looked at nothing."""
    ask(0, WRITE, b"/a\0value")
    for i in range(size):
        ask(0, START, b"\0")
    for i in range(count):
        ask(0, WRITE, b"/a\0other")


# Watches.


def readable():
    """What domain 0 makes from here on, every domain may read."""
    ask(0, SET_PERMS, b"/\0r0\0")


def watched_write(count, size):
    """WRITEs of nodes, on each of which one of so many watches is, ten of a connection; a unit is a WRITE with its event."""
    domains(range(1, size // 10 + 1))
    readable()
    for i in range(size):
        ask(i % (size // 10) + 1, WATCH, b"/watched%05d\0token\0" % i)
    for i in range(count):
        ask(0, WRITE, b"/watched%05d\0value" % (i * 7919 % (size or 10000)))


def many_watchers(count, size):
    """WRITEs of one node that so many connections watch; a unit is an event."""
    domains(range(1, size + 1))
    readable()
    for d in range(1, size + 1):
        ask(d, WATCH, b"/watched\0token\0")
    for i in range(count):
        ask(0, WRITE, b"/watched\0value")


def watched_rm(count, size):
    """RM of a folder of so many nodes with a watch on each; a unit is a node."""
    for i in range(size):
        ask(0, WATCH, b"/folder/node%05d\0token\0" % i)
        ask(0, WRITE, b"/folder/node%05d\0value" % i)
    for i in range(count // size):
        ask(0, RM, b"/folder\0", 40)


def rm_below_watch(count, size):
    """The same with one watch above them all."""
    ask(0, WATCH, b"/folder\0token\0")
    for i in range(size):
        ask(0, WRITE, b"/folder/node%05d\0value" % i)
    for i in range(count // size):
        ask(0, RM, b"/folder\0", 40)


def rm_unwatched(count, size):
    """The same without a watch."""
    for i in range(size):
        ask(0, WRITE, b"/folder/node%05d\0value" % i)
    for i in range(count // size):
        ask(0, RM, b"/folder\0", 40)


# Limits.


def quota(count):
    """A guest makes so many watches of one node, each with a token of its own."""
    domains([5])
    for i in range(count):
        ask(5, WATCH, b"/a\0%d\0" % i)


def crowded(count):
    """A guest writes a node that domain 0 watches 4096 times, over and over; an event has 1042 bytes."""
    domains([5])
    ask(0, WRITE, b"/a\0")
    for i in range(4096):
        ask(0, WATCH, b"/a\0" + b"%01022d\0" % i, 3)
    # The new entries are a change, so it is told 4096 times as well.
    ask(0, SET_PERMS, b"/a\0b0\0", 4200)
    for i in range(count):
        ask(5, WRITE, b"/a\0")


# Scripts.


def falling_domains(count):
    domains(range(count, 0, -1))


def serves(count):
    print("serve 0\n" * count, end="")


# Streams.


def record(kind, body):
    return struct.pack("<II", kind, len(body)) + body + bytes(-len(body) % 8)


def node(path, value):
    head = struct.pack("<IIHHHH", 0, 0, len(path) + 1, len(value), 0, 2)
    entries = b"n\0" + struct.pack("<H", 0) + b"r\0" + struct.pack("<H", 5)
    return record(5, head + entries + path + b"\0" + value)


def stream(count):
    nodes = [node(b"/local/domain/%d/device/vif/%d" % (i // 10, i % 10), b"value of node %d" % i) for i in range(count)]
    head = b"xenstore" + struct.pack(">I", 1) + bytes(4) + record(1, struct.pack("<ii", -1, -1))
    return head + b"".join(nodes) + record(0, b"")


def raw(count):
    sys.stdout.buffer.write(stream(count))


def digits(count):
    print(stream(count).hex())


# Handovers.


def host_paths(count):
    """So many nodes of host paths in order, with those above them."""
    paths = {b"/", b"/local", b"/local/domain"}
    place = 0
    while len(paths) < count:
        device = b"/local/domain/%d/device" % (place // 4)
        vif = device + b"/vif/%d" % (place % 4)
        paths |= {device[:-7], device, device + b"/vif", vif, vif + b"/state"}
        place += 1
    return sorted(paths, key=lambda path: path.replace(b"/", b"\0"))[:count]


def committed(path, value):
    return record(5, struct.pack("<IIHHHH", 0, 1, len(path) + 1, len(value), 0, 1) + b"n\0\0\0" + path + b"\0" + value)


def looked_at(conn, tx, path, value):
    head = struct.pack("<IIHHHH", conn, tx, len(path) + 1, len(value), 1, 1)
    return record(5, head + b"n\0\0\0" + path + b"\0" + value)


def state(size):
    """So many nodes; 1000 ring connections with 10 watches each; 100 of them have a transaction with 10 entries open."""
    conns = range(1, 1001)
    ring = [record(2, struct.pack("<IHHHHIIII", c, 0, 0, c - 1, 0x7FF4, 0, 0, 0, 0)) for c in conns]
    watches = [
        record(3, struct.pack("<IHH", c, len(b"/local/domain/%d\0" % w), 2) + b"/local/domain/%d\0" % w + b"%d\0" % (w % 10))
        for c in conns
        for w in range(10)
    ]
    opens = [record(4, struct.pack("<III", c, 1, 0)) for c in conns[:100]]
    paths = host_paths(size)
    nodes = [committed(path, b"4") for path in paths]
    marks = [looked_at(c, 1, path, b"4") for c in conns[:100] for path in paths[:10]]
    head = b"xenstore" + struct.pack(">I", 1) + bytes(4) + record(1, struct.pack("<ii", -1, -1))
    return head + b"".join(ring + watches + opens + nodes + marks) + record(0, b"")


def handovers(count, size):
    """A state with so many nodes goes on, and is handed over; a unit is a node of a handover."""
    print("resume " + state(size).hex())
    print("handover\n" * (count // size), end="")


def sockets(count):
    """A state with so many socket connections goes on."""
    conns = [record(2, struct.pack("<IHHIIIII", c, 1, 0, 7, 0, 0, 0, 0)) for c in range(1, count + 1)]
    head = b"xenstore" + struct.pack(">I", 1) + bytes(4) + record(1, struct.pack("<ii", -1, -1))
    print("resume " + (head + b"".join(conns) + record(0, b"")).hex())


case, _, size = sys.argv[1].partition(":")
globals()[case](int(sys.argv[2]), *map(int, size.split()))
