"""Reads BGP messages and records of MRT by mrtparse's readers of values, and shows them as `octseq_bgp` does.

mrtparse (Debian's python3-mrtparse 1.6) reads each number, address, prefix, path, community and capability. It guesses
what the octets don't say, and reads lists past their ends. So this says what the session decides, and holds each list
to its length. Text that it makes never comes from the programs of this repository.
"""
import dataclasses
import ipaddress

import mrtparse
from mrtparse import MrtFormatError

MARKER = b"\xff" * 16
OPEN, UPDATE, NOTIFICATION, KEEPALIVE, ROUTE_REFRESH = range(1, 6)
MP_REACH_NLRI, MP_UNREACH_NLRI = 14, 15
CAPABILITIES = 2
EXTENDED_LENGTH = 0x10
FLAGS = ((0x80, "O"), (0x40, "T"), (0x20, "P"))
ADDRESSES = {1: "IPv4", 2: "IPv6"}
PURPOSES = {1: "unicast", 2: "multicast"}
ORIGINS = {0: "IGP", 1: "EGP", 2: "INCOMPLETE"}
SEGMENTS = {1: "set", 2: "sequence", 3: "confed-sequence", 4: "confed-set"}
WAYS = {1: "receive", 2: "send", 3: "both"}
TABLE_DUMP_V2, BGP4MP, BGP4MP_ET = 13, 16, 17


@dataclasses.dataclass(frozen=True)
class Session:
    """What two speakers agreed on."""

    asn_size: int = 4
    add_path: bool = False
    longest: int = 4096

    @classmethod
    def of_words(cls, words):
        """The session of some of the words two-octet, add-path and extended."""
        return cls(2 if "two-octet" in words else 4, "add-path" in words, 65535 if "extended" in words else 4096)

    @classmethod
    def of_number(cls, number):
        """The session of a number: 1 for two-octet, 2 for add-path, 4 for extended, or a sum."""
        words = ("two-octet", "add-path", "extended")
        return cls.of_words([word for bit, word in enumerate(words) if number >> bit & 1])


class Octets(mrtparse.Base):
    """Octets, and mrtparse's readers of what is next in them."""

    def __init__(self, octets):
        super().__init__()
        self.buf = octets

    def size(self):
        return len(self.buf) - self.p

    def rest(self):
        return self.val_bytes(self.size())

    def counted(self, size):
        """Octets after their length, which has so many octets."""
        return self.val_bytes(self.val_num(size))


def demand(holds):
    if not holds:
        raise MrtFormatError


def of(names, number):
    """The name of a number, which must have one."""
    demand(number in names)
    return names[number]


def opaque(octets):
    return " ".join(["\\#", str(len(octets)), octets.hex()]).rstrip()


def string(octets):
    def character(octet):
        if octet in b'"\\':
            return "\\" + chr(octet)
        return chr(octet) if 0x20 <= octet < 0x7F else f"\\{octet:03}"

    return '"' + "".join(map(character, octets)) + '"'


def family(afi, safi):
    return ADDRESSES.get(afi, f"AFI{afi}") + "/" + PURPOSES.get(safi, f"SAFI{safi}")


def prefix(nlri, afi):
    """The text of a prefix that mrtparse read. The bits after its last one are zeros."""
    network = ipaddress.ip_network((nlri.prefix, nlri.plen), strict=False)
    address = Octets(network.network_address.packed).val_addr(afi)
    path = "" if nlri.path_id is None else f" path {nlri.path_id}"
    return f"{address}/{nlri.plen}{path}"


def prefixes(octets, session, afi=1, safi=1):
    shown = []
    while octets:
        nlri = mrtparse.Nlri(octets)
        size = nlri.unpack(afi, safi, add_path=session.add_path)
        shown.append(prefix(nlri, afi))
        octets = octets[size:]
    return shown


def next_hops(octets, afi):
    """One IPv4 address, not of IPv6 prefixes, or one or two of IPv6."""
    demand(len(octets) in (16, 32) or len(octets) == 4 and afi != 2)
    addresses = Octets(octets)
    if len(octets) == 4:
        return [addresses.val_addr(1)]
    return [addresses.val_addr(2) for _ in range(0, len(octets), 16)]


def segments(path):
    words = []
    for segment in path:
        demand(segment["len"] > 0)
        words += [of(SEGMENTS, segment["type"]), *segment["val"]]
    return words


def extended_community(number):
    octets = Octets(number.to_bytes(8, "big"))
    form, subtype = octets.val_num(1), octets.val_num(1)
    if subtype not in (2, 3) or form > 2:
        return f"{number:016x}"
    word = "target" if subtype == 2 else "origin"
    if form == 0:
        return f"{word}:{octets.val_asn(2)}:{octets.val_num(4)}"
    if form == 1:
        return f"{word}:{octets.val_addr(1)}:{octets.val_num(2)}"
    return f"{word}:{octets.val_asn(4)}L:{octets.val_num(2)}"


def some(size):
    """Whether a length is that of items of a size, one at least."""
    return lambda length, _: length > 0 and length % size == 0


def exactly(size):
    return lambda length, _: length == size


def exactly_asn_and(size):
    return lambda length, session: length == session.asn_size + size


def any_size(length, _):
    return True


# Of each type of attribute whose value is read: its name, which lengths it may have, and its words as mrtparse has
# them.
VALUES = {
    1: ("ORIGIN", exactly(1), lambda it: [of(ORIGINS, it.origin)]),
    2: ("AS_PATH", any_size, lambda it: segments(it.as_path)),
    3: ("NEXT_HOP", exactly(4), lambda it: [it.next_hop]),
    4: ("MULTI_EXIT_DISC", exactly(4), lambda it: [it.med]),
    5: ("LOCAL_PREF", exactly(4), lambda it: [it.local_pref]),
    6: ("ATOMIC_AGGREGATE", exactly(0), lambda it: []),
    7: ("AGGREGATOR", exactly_asn_and(4), lambda it: [it.aggr["asn"], it.aggr["id"]]),
    8: ("COMMUNITIES", some(4), lambda it: it.comm),
    9: ("ORIGINATOR_ID", exactly(4), lambda it: [it.org_id]),
    10: ("CLUSTER_LIST", some(4), lambda it: it.cl_list),
    16: ("EXTENDED_COMMUNITIES", some(8), lambda it: map(extended_community, it.ext_comm)),
    17: ("AS4_PATH", any_size, lambda it: segments(it.as4_path)),
    18: ("AS4_AGGREGATOR", exactly(8), lambda it: [it.as4_aggr["asn"], it.as4_aggr["id"]]),
    32: ("LARGE_COMMUNITIES", some(12), lambda it: it.large_comm),
}
NAMES = {number: name for number, (name, _, _) in VALUES.items()}
NAMES |= {MP_REACH_NLRI: "MP_REACH_NLRI", MP_UNREACH_NLRI: "MP_UNREACH_NLRI"}


def words_of(kind, value, session):
    """The words of a value after the name of its type."""
    _, may_have, words = of(VALUES, kind)
    demand(may_have(len(value), session))
    mrtparse.as_len(session.asn_size)
    attribute = mrtparse.BgpAttr(bytes([EXTENDED_LENGTH, kind]) + len(value).to_bytes(2, "big") + value)
    demand(attribute.unpack() == len(attribute.buf))
    return list(words(attribute))


def reach(kind, value, session):
    """The words of prefixes of any family, and the line of each."""
    octets = Octets(value)
    afi, safi = octets.val_num(2), octets.val_num(1)
    demand(afi in ADDRESSES and safi in PURPOSES)
    words = [family(afi, safi)]
    if kind == MP_REACH_NLRI:
        words += next_hops(octets.counted(1), afi)
        octets.val_num(1)
    verb = "reached" if kind == MP_REACH_NLRI else "unreached"
    return words, [f"{verb} {shown}" for shown in prefixes(octets.rest(), session, afi, safi)]


def value_of(kind, value, session, in_rib):
    """The words of a value, and the lines after that of its attribute."""
    if in_rib and kind == MP_REACH_NLRI and value and value[0] == len(value) - 1:
        return next_hops(value[1:], None), []
    if kind in (MP_REACH_NLRI, MP_UNREACH_NLRI):
        return reach(kind, value, session)
    return words_of(kind, value, session), []


def attributes(octets, session, in_rib=False):
    lines, octets = [], Octets(octets)
    while octets.size():
        flags, kind = octets.val_num(1), octets.val_num(1)
        value = octets.counted(2 if flags & EXTENDED_LENGTH else 1)
        letters = "".join(letter for bit, letter in FLAGS if flags & bit)
        try:
            words, more = value_of(kind, value, session, in_rib)
        except MrtFormatError:
            words, more = [opaque(value)], []
        lines.append(" ".join(map(str, ["attribute", letters or "-", NAMES.get(kind, kind), *words])))
        lines += more
    return lines


def graceful_restart(restart):
    letters = "".join(letter for bit, letter in ((0x8000, "R"), (0x4000, "N")) if restart["flag"] & bit)
    words = ["graceful-restart", letters or "-", restart["sec"]]
    for entry in restart["entry"]:
        words += [family(entry["afi"], entry["safi"]), "F" if entry["flag"] & 0x80 else "-"]
    return words


def add_path(entries):
    words = ["add-path"]
    for entry in entries:
        words += [family(entry["afi"], entry["safi"]), of(WAYS, entry["send_recv"])]
    return words


# The same of the codes of capabilities.
CODES = {
    1: (exactly(4), lambda it: ["multiprotocol", family(it.multi_ext["afi"], it.multi_ext["safi"])]),
    2: (exactly(0), lambda it: ["route-refresh"]),
    6: (exactly(0), lambda it: ["extended-message"]),
    64: (lambda length, _: length % 4 == 2, lambda it: graceful_restart(it.graceful_restart)),
    65: (exactly(4), lambda it: ["four-octet-as", it.support_as4]),
    69: (some(4), lambda it: add_path(it.add_path)),
    70: (exactly(0), lambda it: ["enhanced-route-refresh"]),
}


def capability(code, value):
    try:
        may_have, words = of(CODES, code)
        demand(may_have(len(value), None))
        # mrtparse reads one capability of a parameter, whose length is that of all of them.
        read = mrtparse.OptParams(bytes([CAPABILITIES, len(value) + 2 & 255, code, len(value)]) + value)
        read.unpack()
        shown = words(read)
    except MrtFormatError:
        shown = [code, opaque(value)]
    return " ".join(map(str, ["capability", *shown]))


def capabilities(octets):
    lines, octets = [], Octets(octets)
    while octets.size():
        lines.append(capability(octets.val_num(1), octets.counted(1)))
    return lines


def parameters(octets, length_size):
    lines, octets = [], Octets(octets)
    while octets.size():
        kind, value = octets.val_num(1), octets.counted(length_size)
        try:
            demand(kind == CAPABILITIES)
            lines += capabilities(value)
        except MrtFormatError:
            lines.append(f"parameter {kind} {opaque(value)}")
    return lines


def open_lines(octets):
    version, asn, hold, id = octets.val_num(1), octets.val_asn(2), octets.val_num(2), octets.val_addr(1)
    lines = [f"open version {version} as {asn} hold {hold} id {id}"]
    length, inside = octets.val_num(1), Octets(octets.rest())
    if length > 0 and inside.buf[:1] == b"\xff":
        inside.val_num(1)
        found = inside.counted(2)
        demand(inside.size() == 0)
        return lines + parameters(found, 2)
    demand(length == inside.size())
    return lines + parameters(inside.rest(), 1)


def update_lines(octets, session):
    withdrawn, path_attributes, announced = octets.counted(2), octets.counted(2), octets.rest()
    lines = ["update"] + [f"withdrawn {shown}" for shown in prefixes(withdrawn, session)]
    lines += attributes(path_attributes, session)
    return lines + [f"announced {shown}" for shown in prefixes(announced, session)]


def communication(code, subcode, octets):
    """The text of a shutdown."""
    demand(code == 6 and subcode in (2, 4))
    octets = Octets(octets)
    text = octets.counted(1)
    demand(octets.size() == 0)
    try:
        text.decode("utf-8")
    except UnicodeDecodeError:
        demand(False)
    return string(text)


def notification_lines(octets):
    code, subcode, octets = octets.val_num(1), octets.val_num(1), octets.rest()
    try:
        shown = communication(code, subcode, octets)
    except MrtFormatError:
        shown = opaque(octets)
    return [f"notification {code} {subcode} {shown}"]


def route_refresh_lines(octets):
    afi, subtype, safi = octets.val_num(2), octets.val_num(1), octets.val_num(1)
    after = " " + opaque(octets.rest()) if octets.size() else ""
    return [f"route-refresh {family(afi, safi)} {subtype}{after}"]


def body_lines(kind, octets, session):
    if kind == OPEN:
        return open_lines(octets)
    if kind == UPDATE:
        return update_lines(octets, session)
    if kind == NOTIFICATION:
        return notification_lines(octets)
    if kind == KEEPALIVE:
        demand(octets.size() == 0)
        return ["keepalive"]
    demand(kind == ROUTE_REFRESH)
    return route_refresh_lines(octets)


def message_lines(message, session):
    """The lines of a message, or one that says that it is none."""
    octets = Octets(message)
    try:
        demand(octets.val_bytes(16) == MARKER)
        length, kind = octets.val_num(2), octets.val_num(1)
        demand(length == len(message))
        demand(length <= (4096 if kind in (OPEN, KEEPALIVE) else session.longest))
        return body_lines(kind, octets, session)
    except MrtFormatError:
        return ["malformed"]


def text_of(lines):
    return "".join(f"{line}\n" for line in lines)


def message_text(message, session):
    return text_of(message_lines(message, session))


def stream_text(octets, session):
    """The text of messages one after another, each with an empty line after it, and whether all were read."""
    text, place = "", 0
    while place < len(octets):
        header = octets[place:place + 18]
        size = int.from_bytes(header[16:], "big")
        if header[:16] != MARKER[:len(header)] or len(header) == 18 and not 19 <= size <= session.longest:
            return text + "malformed\n\n", False
        if len(header) < 18 or len(octets) < place + size:
            return text + "unexpected end of input\n", False
        text += message_text(octets[place:place + size], session) + "\n"
        place += size
    return text, True


def peer_lines(time, octets):
    collector, view, count = octets.val_addr(1), octets.counted(2), octets.val_num(2)
    lines = [f"peers {time} collector {collector} view {string(view)}"]
    for number in range(count):
        peer = mrtparse.PeerEntries(octets.buf[octets.p:])
        octets.p += peer.unpack()
        lines.append(f"peer {number} id {peer.bgp_id} address {peer.ip} as {peer.asn}")
    return lines


def rib_lines(time, subtype, octets):
    has_paths = subtype >= 8
    afi = 1 if subtype in (2, 3, 8, 9) else 2
    sequence = octets.val_num(4)
    nlri = mrtparse.Nlri(octets.buf[octets.p:])
    octets.p += nlri.unpack(afi)
    lines = [f"rib {time} {subtype} sequence {sequence} {prefix(nlri, afi)}"]
    for _ in range(octets.val_num(2)):
        peer, originated = octets.val_num(2), octets.val_num(4)
        path = f" path {octets.val_num(4)}" if has_paths else ""
        lines.append(f"entry {peer} time {originated}{path}")
        lines += attributes(octets.counted(2), Session(), in_rib=True)
    return lines


def table_lines(time, subtype, data):
    octets = Octets(data)
    if subtype == 1:
        lines = peer_lines(time, octets)
    else:
        demand(subtype in (2, 3, 4, 5, 8, 9, 10, 11))
        lines = rib_lines(time, subtype, octets)
    demand(octets.size() == 0)
    return lines


def bgp4mp(kind, subtype, data):
    """What is shown after the time of a BGP4MP record, its message, and the session of that, if it has one."""
    octets = Octets(data)
    fraction = f".{octets.val_num(4):06}" if kind == BGP4MP_ET else ""
    demand(subtype in (0, 1, 4, 5, 6, 7, 8, 9, 10, 11))
    size = 4 if subtype in (4, 5, 7, 9, 11) else 2
    remote, local, interface, afi = octets.val_asn(size), octets.val_asn(size), octets.val_num(2), octets.val_num(2)
    demand(afi in ADDRESSES)
    there, here = octets.val_addr(afi), octets.val_addr(afi)
    shown = f"{fraction} {subtype} peer {there} as {remote} local {here} as {local} interface {interface}"
    if subtype in (0, 5):
        shown += f" state {octets.val_num(2)} {octets.val_num(2)}"
        demand(octets.size() == 0)
        return shown, None, None
    return shown, octets.rest(), Session(size, subtype >= 8, 65535)


def bgp4mp_lines(time, kind, subtype, data):
    shown, message, session = bgp4mp(kind, subtype, data)
    return [f"bgp4mp {time}{shown}"] + ([] if message is None else message_lines(message, session))


def record_lines(time, kind, subtype, data):
    try:
        if kind == TABLE_DUMP_V2:
            return table_lines(time, subtype, data)
        demand(kind in (BGP4MP, BGP4MP_ET))
        return bgp4mp_lines(time, kind, subtype, data)
    except MrtFormatError:
        return [f"record {time} {kind} {subtype} {opaque(data)}"]


def messages_of_record(kind, subtype, data):
    """The message of a record, if it has one that isn't malformed."""
    try:
        demand(kind in (BGP4MP, BGP4MP_ET))
        _, message, session = bgp4mp(kind, subtype, data)
        demand(message is not None and message_lines(message, session) != ["malformed"])
        return [message]
    except MrtFormatError:
        return []


def records_of(octets):
    """The time, type, subtype and data of records one after another, and whether all were read."""
    records, octets = [], Octets(octets)
    while octets.size():
        try:
            time, kind, subtype = octets.val_num(4), octets.val_num(2), octets.val_num(2)
            records.append((time, kind, subtype, octets.counted(4)))
        except MrtFormatError:
            return records, False
    return records, True


def mrt_text(octets):
    """The text of records one after another, each with an empty line after it, and whether all were read."""
    records, is_whole = records_of(octets)
    texts = [text_of(record_lines(*record)) + "\n" for record in records]
    return "".join(texts) + ("" if is_whole else "unexpected end of input\n"), is_whole


def mrt_messages(octets):
    """The messages of records one after another, and whether all records were read."""
    records, is_whole = records_of(octets)
    messages = [message for _, *record in records for message in messages_of_record(*record)]
    return b"".join(messages), is_whole
