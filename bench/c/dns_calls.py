#!/usr/bin/env python3
"""Times the calls of the Python package on DNS messages, beside those of dnspython.

    bench/c/dns_calls.py ROUNDS STREAM COUNT

STREAM has messages, each after its length in two octets, of which the first COUNT count. It prints a table in Markdown.
A message on which a work of octseq and that of dnspython don't do the same is left out of that row. The packages
`octseq` and `dns` have to be where Python looks.
"""
import collections
import pathlib
import sys
from typing import Any, Callable, NamedTuple

import dns.flags
import dns.message
import dns.rdatatype
import octseq
import octseq.dns
from octseq.dns import Flag, Message
from rounds import print_head, print_row, time_in_turn

NUMBER = 7
APART = (41, 250)  # OPT and TSIG, which dnspython keeps apart from the other records of their section


class Sample(NamedTuple):
    """A message, and what both sides make of it before anything is timed."""

    octets: bytes
    name: str  # of its first question
    rdtype: int
    rdclass: int
    records: list  # those that an answer may have
    query: Any
    theirs: Any
    their_query: Any


# ---- what is timed ----


def sections_of(message):
    return message.questions, message.answers, message.authorities, message.additionals


def our_message(sample):
    return Message.from_wire(sample.octets)


def their_message(sample):
    return dns.message.from_wire(sample.octets)


def our_names(sample):
    return [entry.name for section in sections_of(our_message(sample)) for entry in section]


def their_names(sample):
    return [rrset.name for section in their_message(sample).sections for rrset in section]


def our_texts(sample):
    """The texts of each name, and of each record's data."""
    names, data = [], []
    for section in sections_of(our_message(sample)):
        for entry in section:
            names.append(entry.name.to_text())
            if isinstance(entry, octseq.dns.Record):
                data.append(entry.rdata.to_text())
    return names, data


def their_texts(sample):
    names, data = [], []
    for section in their_message(sample).sections:
        for rrset in section:
            names.append(rrset.name.to_text())
            data += [rdata.to_text() for rdata in rrset]
    return names, data


def our_text(sample):
    return our_message(sample).to_text()


def their_text(sample):
    return their_message(sample).to_text()


def our_rewrite(sample):
    return our_message(sample).to_wire()


def their_rewrite(sample):
    return their_message(sample).to_wire(max_size=65535)


def our_query(sample):
    return octseq.dns.make_query(sample.name, sample.rdtype, sample.rdclass, id=NUMBER).to_wire()


def their_query(sample):
    return dns.message.make_query(sample.name, sample.rdtype, sample.rdclass, id=NUMBER).to_wire()


def our_response(sample):
    return octseq.dns.make_response(sample.query, sample.records, Flag.AA | Flag.RA).octets


def their_response(sample):
    """The response, written. The sets of records are those of a message that was read before."""
    response = dns.message.make_response(sample.their_query, recursion_available=True)
    response.flags |= dns.flags.AA
    response.answer += sample.theirs.answer
    response.authority += sample.theirs.authority
    response.additional += sample.theirs.additional
    return response.to_wire(max_size=65535)


# ---- whether both do the same ----


def counts_of(octets):
    """How many entries of each section and type our reader finds."""
    return collections.Counter((row.section, row.rtype) for row in Message.from_wire(octets)._entries())


def their_counts_of(message):
    """The same of dnspython's. In a question a set of records has none."""
    counts = collections.Counter()
    for section, rrsets in enumerate(message.sections):
        for rrset in rrsets:
            counts[section, int(rrset.rdtype)] += len(rrset) if section else 1
    return counts


def without_apart(counts):
    return {(section, rtype): count for (section, rtype), count in counts.items() if rtype not in APART}


def is_same_message(sample):
    return without_apart(counts_of(sample.octets)) == without_apart(their_counts_of(sample.theirs))


def is_same_names(sample):
    """Each side tells the same names. dnspython tells one for each set of records."""
    entries = (entry for section in sections_of(our_message(sample)) for entry in section)
    ours = {entry.name.to_text() for entry in entries if entry.rdtype not in APART}
    return is_same_message(sample) and ours == {name.to_text() for name in their_names(sample)}


def apart_of(sample):
    """How many of its records dnspython keeps apart."""
    return sum(count for (_, rtype), count in counts_of(sample.octets).items() if rtype in APART)


def is_same_texts(sample):
    """Both sides tell the same names, and the data of as many records."""
    data, their_data = our_texts(sample)[1], their_texts(sample)[1]
    return is_same_names(sample) and len(data) == len(their_data) + apart_of(sample)


def records_of_text(text):
    """How many lines of dnspython's text have a question or a record. Those of the header are before the first `;`."""
    lines = text[text.index("\n;") + 1 :].splitlines()
    return sum(not line.startswith(";") for line in lines)


def is_same_text(sample):
    """Both texts have as many entries. Ours has a line for each, after that of the header."""
    lines = len(our_text(sample).splitlines())
    return is_same_message(sample) and lines == 1 + apart_of(sample) + records_of_text(their_text(sample))


def is_same_wire(ours, theirs):
    """Both are as long, and have the same header and as many entries of each type."""
    return len(ours) == len(theirs) and ours[:12] == theirs[:12] and counts_of(ours) == counts_of(theirs)


def is_same_rewrite(sample):
    return is_same_wire(our_rewrite(sample), their_rewrite(sample))


def is_same_query(sample):
    return our_query(sample) == their_query(sample)


def is_same_response(sample):
    return is_same_wire(our_response(sample), their_response(sample))


# ---- the table ----


class Comparison(NamedTuple):
    our_name: str
    ours: Callable
    their_name: str
    theirs: Callable
    is_same: Callable


COMPARISONS = [
    Comparison("`Message.from_wire`", our_message, "`from_wire`", their_message, is_same_message),
    Comparison("`from_wire`, `name` of all entries", our_names, "`from_wire`, `name` of all sets", their_names,
               is_same_names),
    Comparison("`from_wire`, `to_text` of all names and data", our_texts, "the same", their_texts, is_same_texts),
    Comparison("`from_wire`, `to_text` of the message", our_text, "the same", their_text, is_same_text),
    Comparison("`from_wire`, `to_wire`", our_rewrite, "the same", their_rewrite, is_same_rewrite),
    Comparison("`make_query` of a text, `to_wire`", our_query, "the same", their_query, is_same_query),
    Comparison("`make_response` with records, `octets`", our_response,
               "`make_response`, sets of records added, `to_wire`", their_response, is_same_response),
]


def answer_or_none(work, *arguments):
    """What a work answers, or None where it refuses. dnspython refuses with errors of many classes."""
    try:
        return work(*arguments)
    except Exception:
        return None


def sample_of(octets, message):
    """A message that octseq reads. Where a side doesn't make a thing of it, that is None."""
    question = next(iter(message.questions), None)
    theirs = answer_or_none(dns.message.from_wire, octets)
    if question is None:
        return Sample(octets, None, 0, 0, [], None, theirs, None)
    asked = question.name.to_text(), question.rdtype, question.rdclass
    records = [record for section in sections_of(message)[1:] for record in section if record.rdtype not in APART]
    query = octseq.dns.make_query(*asked, id=NUMBER)
    return Sample(octets, *asked, records, query, theirs, answer_or_none(dns.message.from_wire, query.octets))


def read_samples(path, count):
    """What is made of the first messages, and how many are none."""
    stream, samples, at, malformed = path.read_bytes(), [], 0, 0
    for _ in range(count):
        begin, at = at + 2, at + 2 + int.from_bytes(stream[at : at + 2], "big")
        try:
            samples.append(sample_of(stream[begin:at], Message.from_wire(stream[begin:at])))
        except octseq.Malformed:
            malformed += 1
    return samples, malformed


def print_comparison(comparison, samples, rounds):
    kept = [sample for sample in samples if answer_or_none(comparison.is_same, sample)]
    if not kept:
        sys.exit(f"{comparison.our_name}: on no message both do the same")
    ours, theirs = (seconds * 1e6 for seconds in time_in_turn([comparison.ours, comparison.theirs], kept, rounds))
    numbers = f"{ours:.1f}", f"{theirs:.1f}", f"{ours / theirs:.3f}", len(kept), len(samples) - len(kept)
    print_row([comparison.our_name, comparison.their_name, *numbers])


def main():
    if len(sys.argv) != 4:
        sys.exit("dns_calls.py ROUNDS STREAM COUNT")
    rounds = int(sys.argv[1])
    samples, malformed = read_samples(pathlib.Path(sys.argv[2]), int(sys.argv[3]))
    print("Microseconds a message, by the Python package and by dnspython, and time over that of dnspython. dnspython")
    print("reads all of a message at once; octseq checks all of it, and reads what is asked for. Of", end=" ")
    print(f"{len(samples) + malformed} messages of real\ntraffic {len(samples)} are messages by RFC 1035.", end=" ")
    print("Of those, the last column says how many are left out:\n")
    print_head(["octseq", "dnspython", "octseq", "dnspython", "over dnspython", "messages", "left out"])
    for comparison in COMPARISONS:
        print_comparison(comparison, samples, rounds)
    print()


if __name__ == "__main__":
    main()
