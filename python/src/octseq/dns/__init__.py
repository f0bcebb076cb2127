"""Names and messages of DNS (RFC 1035).

What has the name of something in dnspython is that: `Message.from_wire`, `to_wire`, `to_text`, `id`, `flags`, `opcode`,
`rcode`, `edns`, `ednsflags`, `payload`, `options`, `Name.from_text`, `labels`, `parent`, `is_subdomain`, `rdtype`,
`rdclass`, `ttl`, and the fields of data, as `preference` and `exchange`. A message's sections have other names,
`questions`, `answers`, `authorities` and `additionals`, because they have single records, not sets of them.
"""
from .edns import EDNSFlag
from .message import Message, make_query, make_response
from .name import Name, NoParent
from .numbers import (
    Flag,
    Section,
    rdataclass_from_text,
    rdataclass_to_text,
    rdatatype_from_text,
    rdatatype_to_text,
)
from .rdata import Field, FieldKind, Option, Parameter, Rdata
from .record import Question, Record

__all__ = [
    "EDNSFlag",
    "Field",
    "FieldKind",
    "Flag",
    "Message",
    "Name",
    "NoParent",
    "Option",
    "Parameter",
    "Question",
    "Rdata",
    "Record",
    "Section",
    "make_query",
    "make_response",
    "rdataclass_from_text",
    "rdataclass_to_text",
    "rdatatype_from_text",
    "rdatatype_to_text",
]
