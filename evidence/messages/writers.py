"""The writers and readers that the comparison of messages asks: dnspython here, libknot by knot.c.

A listing is what a reader reads of a message, with names in lowercase and nothing compressed: five words, as knot.c has
them. Two messages with the same listing have the same header, counts, questions and records.
"""
import struct
import subprocess

import dns.edns
import dns.message
import dns.name
import dns.rdata
import dns.rdataclass
import dns.rdatatype
import dns.rdtypes.IN.NAPTR
import dns.rdtypes.IN.SRV
import dns.rrset
import dns.version

import messages


def load_types():
    """Asked first for another class, dnspython would take some types for unknown ones in class IN, too."""
    for number in range(300):
        dns.rdata.get_rdata_class(dns.rdataclass.IN, number)


load_types()


def wire(labels):
    return b"".join(bytes([len(label)]) + label for label in labels) + b"\0"


def plain_data(record):
    """The data of a record with nothing compressed."""
    return b"".join(wire(part) if isinstance(part, tuple) else part for part in record.data)


def counts(message):
    return [len(message.questions)] + [len(section) for section in message.sections]


def spec(message):
    """The message as a line for knot.c."""
    words = [struct.pack("!6H", message.ident, message.flags, *counts(message)).hex()]
    words.append("qd=" + "".join(f"{wire(name).hex()}/{rtype}/{rclass};" for name, rtype, rclass in message.questions))
    for word, section in zip(("an=", "ns=", "ar="), message.sections):
        words.append(word + "".join(
            f"{wire(it.owner).hex()}/{it.rtype}/{it.rclass}/{it.ttl}/{plain_data(it).hex()};" for it in section))
    return " ".join(words)


# dnspython

VERSION = dns.version.version


def rrset(owner, rdclass, rdtype, ttl, data):
    res = dns.rrset.RRset(owner, rdclass, rdtype)
    res.add(data, ttl)
    return res


def absolute(labels):
    return dns.name.Name(labels + (b"",))


def options_of(octets):
    options = []
    while octets:
        code, size = struct.unpack("!HH", octets[:4])
        options.append(dns.edns.GenericOption(code, octets[4:4 + size]))
        octets = octets[4 + size:]
    return options


def dnspython_write(message):
    """The octets that dnspython writes for the message."""
    made = dns.message.Message(id=message.ident)
    made.flags = message.flags
    for name, rtype, rclass in message.questions:
        made.question.append(dns.rrset.RRset(absolute(name), rclass, rtype))
    for section, records in zip((made.answer, made.authority, made.additional), message.sections):
        for it in records:
            if it.rtype == messages.OPT:
                made.opt = dns.message.Message._make_opt(it.ttl, it.rclass, options_of(plain_data(it)))
                continue
            octets = plain_data(it)
            data = dns.rdata.from_wire(it.rclass, it.rtype, octets, 0, len(octets))
            section.append(rrset(absolute(it.owner), it.rclass, it.rtype, it.ttl, data))
    return made.to_wire(max_size=65535, want_shuffle=False)


def dnspython_read(octets):
    return dns.message.from_wire(octets, one_rr_per_rrset=True)


def dnspython_again(octets):
    """The octets that dnspython writes for the message that it reads."""
    return dnspython_read(octets).to_wire(max_size=65535, want_shuffle=False)


def dnspython_again_whole(octets):
    """The same, with the names that dnspython writes shorter though their type's standard forbids it written whole."""
    types = (dns.rdtypes.IN.SRV.SRV, dns.rdtypes.IN.NAPTR.NAPTR)
    kept = [it._to_wire for it in types]

    def whole(write):
        return lambda data, file, compress=None, origin=None, canonicalize=False: write(data, file, None, origin, canonicalize)

    try:
        for it in types:
            it._to_wire = whole(it._to_wire)
        return dnspython_again(octets)
    finally:
        for it, write in zip(types, kept):
            it._to_wire = write


def dnspython_list(octets):
    """The listing of the message that dnspython reads, `err` and why if it reads none."""
    try:
        read = dnspython_read(octets)
    except Exception as error:
        return f"err {type(error).__name__}"
    additional = list(read.additional) + ([read.opt] if read.opt is not None else [])
    sections = (read.answer, read.authority, additional)
    found = [len(read.question)] + [len(section) for section in sections]
    words = [struct.pack("!6H", read.id, read.flags, *found).hex()]
    words.append("qd=" + "".join(
        f"{it.name.to_digestable().hex()}/{int(it.rdtype)}/{int(it.rdclass)};" for it in read.question))
    for word, section in zip(("an=", "ns=", "ar="), sections):
        words.append(word + "".join(
            f"{it.name.to_digestable().hex()}/{int(it.rdtype)}/{int(it.rdclass)}/{it.ttl}/{data.to_digestable().hex()};"
            for it in section for data in it))
    return " ".join(words)


# Programs that answer a line by a line

def ask(command, lines):
    """A program's answers to lines."""
    made = subprocess.run(command, input="".join(line + "\n" for line in lines), stdout=subprocess.PIPE, text=True,
                          check=True)
    answers = made.stdout.splitlines()
    if len(answers) != len(lines):
        raise SystemExit(f"{command[0]}: {len(answers)} answers to {len(lines)} lines")
    return answers
