"""Traces, which are datagrams behind their lengths in two octets (docs/SCRIPT.md), and what in them is RTP and what RTCP."""
from refusals import Refused


def read(data):
    """The datagrams of a trace."""
    at, found = 0, []
    while at < len(data):
        length = int.from_bytes(data[at : at + 2], "big")
        if len(data) - at < 2 + length:
            raise Refused(f"frame {len(found) + 1}", "the trace ends in the midst of it")
        found.append(data[at + 2 : at + 2 + length])
        at += 2 + length
    return found


def write(datagrams):
    """The trace of datagrams."""
    return b"".join(len(datagram).to_bytes(2, "big") + datagram for datagram in datagrams)


def is_rtcp(datagram):
    """Whether the second octet is that of an RTCP packet (RFC 5761, section 4)."""
    return len(datagram) >= 2 and 192 <= datagram[1] <= 223


def is_either(datagram):
    """Whether a datagram may be RTP or RTCP: version 2, and a whole fixed header."""
    least = 4 if is_rtcp(datagram) else 12
    return len(datagram) >= least and datagram[0] >> 6 == 2
