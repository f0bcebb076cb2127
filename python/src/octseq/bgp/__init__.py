"""Messages of BGP (RFC 4271 and its extensions), read and shown.

Octets alone don't say how a message is read: AS numbers have four octets or two, prefixes have path ids or none, and
messages have at most 4,096 octets or 65,535. Two speakers agree on that when their session begins, and a `Session` says
what they agreed on.
"""
from .message import Attribute, Kind, Message, Prefix
from .path import AsPath, Segment, SegmentKind
from .session import Family, Session

__all__ = ["AsPath", "Attribute", "Family", "Kind", "Message", "Prefix", "Segment", "SegmentKind", "Session"]
