"""That the text of a whole message says what two second readers, dnspython and dig, read in the same octets.

dnspython's own text of a message has another form, so the library's is taken apart, and its parts are compared with what
dnspython read. dig writes nearly the same form: it gets the messages as answers of a server on the loopback, its words are
put into the library's (`WORDS`), and the parts of both are compared.
"""

import io
import pathlib
import re
import shutil
import socket
import struct
import subprocess
import tempfile
import threading
import unittest
from typing import List, NamedTuple, Optional, Tuple

from dnsnames import Message

from .test_texts import LETTERS, Words

try:
    import dns.exception
    import dns.flags
    import dns.message
    import dns.name
    import dns.opcode
    import dns.rcode
    import dns.rdata
    import dns.rdataclass
    import dns.rdatatype
    import dns.tokenizer
except ImportError:
    dns = None

COMPARED = 1500
UPDATE, DSO = 5, 6
A, SOA, OPT = 1, 6, 41
IN, CH, HS, NONE, ANY = 1, 3, 4, 254, 255
HEADINGS = "QUESTION", "ANSWER", "AUTHORITY", "ADDITIONAL"

OPENING = re.compile(r";; opcode: (\S+), status: (\S+), id: (\d+)")
COUNTS = re.compile(
    r";; flags:((?: [a-z]{2})*)(; MBZ: 0x4)?; QUESTION: (\d+), ANSWER: (\d+), AUTHORITY: (\d+), ADDITIONAL: (\d+)"
)
EDNS = re.compile(
    r"; EDNS: version: (\d+), flags:((?: [a-z]{2})*); (?:MBZ: 0x([0-9a-f]{4}), )?udp: (\d+)(?:, status: (\S+))?"
)
OPTION = re.compile(r"; OPT=(\d+):((?: [0-9a-f]{2})*)")

# What dig says otherwise, and why.
WORDS = (
    # It has a word before the header's lines, and calls the questions of a query, and the sections of an UPDATE (RFC 2136,
    # 2), by names of their own.
    (r"^;; ->>HEADER<<- ", ";; "),
    (r"; (?:QUERY|ZONE): (\d+), (?:ANSWER|PREREQ): (\d+), (?:AUTHORITY|UPDATE): ", r"; QUESTION: \1, ANSWER: \2, AUTHORITY: "),
    (r"^;; (?:QUESTION|ZONE) SECTION:$", ";; QUESTION SECTION"),
    (r"^;; (?:ANSWER|PREREQUISITE) SECTION:$", ";; ANSWER SECTION"),
    (r"^;; (?:AUTHORITY|UPDATE) SECTION:$", ";; AUTHORITY SECTION"),
    (r"^;; ADDITIONAL SECTION:$", ";; ADDITIONAL SECTION"),
    # It doesn't know DSO (RFC 8490), and has words of its own for codes without a name.
    (r"^(;; opcode: )RESERVED6,", r"\1DSO,"),
    (r"^(;; opcode: )RESERVED(\d+),", r"\1OPCODE\2,"),
    (r", status: (?:RESERVED|\?)(\d+),", r", status: RCODE\1,"),
    # Names of options, and their octets once more as letters.
    (r"^; NSID:", "; OPT=3:"),
    (r'^(; OPT=\d+:(?: [0-9a-f]{2})*) \(".*"\)$', r"\1"),
    (r"^(; OPT=\d+)$", r"\1:"),
    # What is asked for has a semicolon before it; an OPT record stands above it, under a heading. And dig warns of what it
    # doesn't await in an answer.
    (r"^;(?=[^; ])", ""),
    (r"^;; (?:OPT PSEUDOSECTION:|Got answer:|(?:Warning|WARNING): .*)$", ""),
)


class Edns(NamedTuple):
    """What an OPT record says; `zero` are the bits beside DO that must be zero."""

    version: int
    dnssec_ok: bool
    zero: int
    size: int
    options: List[Tuple[int, bytes]]


class Parts(NamedTuple):
    """What a message says. The response code has twelve bits; a record is owner, time to live, class, type and data with
    its names uncompressed."""

    id: int
    opcode: int
    rcode: int
    flags: Tuple[str, ...]
    zero: bool
    counts: Tuple[int, ...]
    edns: Optional[Edns]
    questions: List[tuple]
    records: List[List[tuple]]


def number(text: str, names, prefix: str) -> int:
    """The code that a text names, or counts behind a prefix."""
    found = re.fullmatch(prefix + r"(\d+)", text)
    return int(found[1]) if found else int(names.from_text(text))


def opcode_of(text: str) -> int:
    return DSO if text == "DSO" else number(text, dns.opcode, "OPCODE")


def rcode_of(text: str) -> int:
    return number(text, dns.rcode, "RCODE")


def question_of(line: str) -> tuple:
    words = dns.tokenizer.Tokenizer(line)
    name = words.get_name(dns.name.root)
    return name.labels, dns.rdataclass.from_text(words.get_string()), dns.rdatatype.from_text(words.get_string())


def data_of(words: "dns.tokenizer.Tokenizer", type_: int) -> bytes:
    """Data are read as those of class IN, since their text is the same in each; octets (RFC 3597, 5) as they are."""
    first = words.get()
    if first.is_eol_or_eof():
        return b""
    if first.value == r"\#":
        _, *octets = words.get_remaining()
        return bytes.fromhex("".join(it.value for it in octets))
    words.unget(first)
    return dns.rdata.from_text(IN, type_, words, dns.name.root, relativize=False).to_wire()


def record_of(line: str) -> tuple:
    words = dns.tokenizer.Tokenizer(line)
    owner, ttl = words.get_name(dns.name.root), int(words.get_string())
    class_, type_ = dns.rdataclass.from_text(words.get_string()), dns.rdatatype.from_text(words.get_string())
    return owner.labels, ttl, class_, type_, data_of(words, type_)


def matched(pattern: "re.Pattern", line: str) -> "re.Match":
    found = pattern.fullmatch(line)
    if found is None:
        raise ValueError(f"not of this form: {line!r}")
    return found


def edns_of(lines: List[str]) -> Tuple[Optional[Edns], Optional[int]]:
    """What the lines of an OPT record say, and the longer response code where they have one."""
    if not lines:
        return None, None
    version, flags, zero, size, status = matched(EDNS, lines[0]).groups()
    # The bit CO (RFC 9824): an older dig shows it as one that must be zero.
    bits = int(zero or "0", 16) | (0x4000 if " co" in flags else 0)
    options = [matched(OPTION, line).groups() for line in lines[1:]]
    options = [(int(code), bytes.fromhex(octets)) for code, octets in options]
    return Edns(int(version), " do" in flags, bits, int(size), options), rcode_of(status) if status else None


def parts_of(text: str) -> Parts:
    """What the text of a message says."""
    opening, counts, *lines = text.splitlines()
    opcode, status, id_ = matched(OPENING, opening).groups()
    flags, zero, *counts = matched(COUNTS, counts).groups()
    sections = {heading: [] for heading in HEADINGS}
    entries = sections["QUESTION"]
    for line in lines:
        if line.startswith(";; "):
            entries = sections[line[3:].replace(" SECTION", "")]
        elif not line.startswith("; "):
            entries.append(line)
    edns, long_rcode = edns_of([line for line in lines if line.startswith("; ")])
    rcode = rcode_of(status)
    if long_rcode is not None:
        if long_rcode < 16 or long_rcode & 15 != rcode:
            raise ValueError(f"the response codes differ: {status}, {long_rcode}")
        rcode = long_rcode
    questions, *records = sections.values()
    return Parts(
        int(id_), opcode_of(opcode), rcode, tuple(flags.split()), zero is not None, tuple(map(int, counts)), edns,
        [question_of(line) for line in questions], [[record_of(line) for line in it] for it in records],
    )


def parts_by_dnspython(octets: bytes) -> Parts:
    """It refuses opcodes that it has no name for, and reads such a message as a query."""
    opcode = octets[2] >> 3 & 15
    if opcode not in set(dns.opcode.Opcode):
        octets = octets[:2] + bytes([octets[2] & 0x87]) + octets[3:]
    message = dns.message.from_wire(octets, one_rr_per_rrset=True)
    edns = None
    if message.edns >= 0:
        options = [(int(it.otype), it.to_wire()) for it in message.options]
        bits = message.ednsflags & 0xffff
        edns = Edns(message.edns, bits & 0x8000 != 0, bits & 0x7fff, message.payload, options)
    records = [
        [
            # In an UPDATE it keeps class ANY or NONE apart.
            (it.name.labels, it.ttl, it.deleting or it.rdclass, it.rdtype, it[0].to_wire() if it else b"")
            for it in section
        ]
        for section in message.sections[1:]
    ]
    *counts, additional = map(len, message.sections)
    return Parts(
        message.id, opcode, int(message.rcode()), tuple(dns.flags.to_text(message.flags).lower().split()),
        message.flags & 0x40 != 0, (*counts, additional + (edns is not None)), edns,
        [(it.name.labels, it.rdclass, it.rdtype) for it in message.question], records,
    )


class Whole(Words):
    """A whole random message. Its first question's name begins with a number of its own, its owners each with another, so
    that dig, which puts records of one owner and type together, keeps them as they are."""

    def __init__(self, seed: int) -> None:
        super().__init__(seed)
        self.seed = seed
        self.flags = self.random.getrandbits(16)
        self.is_update = self.flags >> 11 & 15 == UPDATE
        self.asked = [self._question(i) for i in range(1 if self.is_update else self.many_questions())]
        self.edns = self.random.random() < 0.6

    def many_questions(self) -> int:
        return self.random.choice((0, 1, 1, 1, 2, 3))

    def _question(self, index: int) -> tuple:
        labels = [bytes(self.random.choice(LETTERS[:52]) for _ in range(3)) for _ in range(self.random.randrange(3))]
        name = dns.name.Name([b"m%d" % self.seed if index == 0 else b"q", *labels, b""])
        if self.is_update:
            return name, SOA, IN
        types = (1, 2, 6, 15, 28, 41, 255, 0, 65, 257, 65280, 65535)
        return name, self.random.choice(types), self.random.choice((IN, IN, IN, CH, HS, NONE, ANY, 4660, 65535))

    def _record(self, section: int) -> tuple:
        """Type, class, time to live and data. In an UPDATE, and of a type that dnspython knows in class IN alone, class ANY
        or NONE can come without data (RFC 2136, 2.4 and 2.5)."""
        kind, text = self.data()
        type_ = dns.rdatatype.from_text(kind)
        data = dns.rdata.from_text(IN, type_, text, dns.name.root, relativize=False)
        if self.is_update:
            class_ = self.random.choice((IN, ANY, NONE)) if section < 3 else IN
            bare = class_ == ANY or class_ == NONE and section == 1
            return (self.random.choice((type_, ANY)), class_, 0, None) if bare else (type_, class_, 0, data)
        if self.random.random() < 0.1:
            return A, self.random.choice((ANY, NONE)), self.number(31), None
        return type_, self.random.choice((IN,) * 6 + (HS, ANY, NONE, 4660)), self.number(31), data

    def _options(self) -> bytes:
        """Options that neither reader has a form for, and NSID, which has none (RFC 5001, 2.3)."""
        options = b""
        for _ in range(self.random.randrange(4)):
            data = self.random.randbytes(self.random.choice((0, 1, 2, 16)))
            options += struct.pack("!HH", self.random.choice((3, 26, 4660, 65001)), len(data)) + data
        return options

    def _opt(self) -> bytes:
        upper = self.random.choice((0, 0, 1, 2, 255, self.random.getrandbits(8)))
        version = self.random.choice((0, 0, 0, 1, 255))
        bits = self.random.choice((0, 0x8000, 0x8000, 1, 0x4000, self.random.getrandbits(16)))
        options = self._options()
        head = (OPT, self.random.choice((512, 1232, 4096, self.number(16))), upper, version, bits, len(options))
        return b"\0" + struct.pack("!HHBBHH", *head) + options

    def octets(self) -> bytes:
        out, names = io.BytesIO(), {}
        out.write(bytes(12))
        for name, type_, class_ in self.asked:
            name.to_wire(out, names)
            out.write(struct.pack("!HH", type_, class_))
        counts = [len(self.asked)]
        for section in (1, 2, 3):
            many = self.random.randrange(4)
            place = self.random.randrange(many + 1) if section == 3 and self.edns else None
            for i in range(many + 1):
                if i == place:
                    out.write(self._opt())
                if i < many:
                    self._write(out, names, b"r%d-%d" % (section, i), *self._record(section))
            counts.append(many + (place is not None))
        struct.pack_into("!6H", out.getbuffer(), 0, self.number(16), self.flags, *counts)
        return out.getvalue()

    def _write(self, out, names, first: bytes, type_: int, class_: int, ttl: int, data) -> None:
        """A record; of class IN the names in its data are compressed where they may be."""
        dns.name.Name((first, *self.name().labels)).to_wire(out, names)
        out.write(struct.pack("!HHIH", type_, class_, ttl, 0))
        begin = out.tell()
        if data is not None:
            data.to_wire(out, names if class_ == IN else None)
        struct.pack_into("!H", out.getbuffer(), begin - 2, out.tell() - begin)


class ForDig(Whole):
    """One that dig takes: it has the question that dig asked. Without NAPTR and RRSIG, since dig refuses a message with a
    pattern that is none, and with some numbers of algorithms."""

    def many_questions(self) -> int:
        return 1

    def data(self) -> tuple:
        kind = "NAPTR"
        while kind in ("NAPTR", "RRSIG"):
            kind, text = super().data()
        return kind, text


class Server:
    """Answers each query on the loopback with the message that its name's first label numbers, under the query's
    identifier; `sent` has what was sent."""

    def __init__(self, messages: dict) -> None:
        self.messages, self.sent = messages, {}
        self.socket = socket.socket(socket.AF_INET, socket.SOCK_DGRAM)
        self.socket.bind(("127.0.0.1", 0))
        self.port = self.socket.getsockname()[1]
        self.thread = threading.Thread(target=self._serve, daemon=True)

    def __enter__(self) -> "Server":
        self.thread.start()
        return self

    def __exit__(self, *_) -> None:
        with socket.socket(socket.AF_INET, socket.SOCK_DGRAM) as last:
            last.sendto(b"", ("127.0.0.1", self.port))
        self.thread.join()
        self.socket.close()

    def _serve(self) -> None:
        while True:
            query, asker = self.socket.recvfrom(65535)
            if not query:
                return
            seed = int(query[14 : 13 + query[12]])
            self.sent[seed] = query[:2] + self.messages[seed][2:]
            self.socket.sendto(self.sent[seed], asker)


# What dig asks is the message's own question, or it wouldn't take the answer. It asks once and over UDP alone, whatever
# the answer's flags and codes are, and shows octets of names unchanged.
DIG = (
    "dig @127.0.0.1 +noall +comments +question +answer +authority +additional +noedns +nocookie +ignore +notcp +tries=1 "
    "+timeout=10 +noidnin +noidnout +nobadcookie +noednsnegotiation"
).split()


# dig of BIND 9.18.49 refuses a message with an owner that is no host name where its type wants one. Earlier ones don't.
GOT = r"^;; Got (?:answer:|bad packet: bad owner name \(check-names\))\n"


def texts_by_dig(wholes: dict, port: int) -> List[str]:
    """What dig writes of each message, in its own words, or nothing where it refuses it for an owner's name."""
    lines = []
    for whole in wholes.values():
        name, type_, class_ = whole.asked[0]
        lines.append(f"-q {name} -t TYPE{type_} -c CLASS{class_} +opcode={whole.flags >> 11 & 15}\n")
    with tempfile.TemporaryDirectory() as folder:
        batch = pathlib.Path(folder) / "queries"
        batch.write_text("".join(lines))
        run = subprocess.run(
            [*DIG, "-p", str(port), "-f", str(batch)], capture_output=True, check=True, timeout=300, env={"HOME": folder},
        )
    said = run.stdout.decode("ascii")
    _, *texts = re.split(GOT, said, flags=re.MULTILINE)
    answered = [it.endswith("answer:\n") for it in re.findall(GOT, said, flags=re.MULTILINE)]
    return [text if it else "" for text, it in zip(texts, answered)]


def in_our_words(text: str) -> str:
    for pattern, words in WORDS:
        text = re.sub(pattern, words, text, flags=re.MULTILINE)
    return "".join(f"{line}\n" for line in text.splitlines() if line)


WITHOUT_FORM = r" (?:TYPE65280|(?:HS|ANY|NONE|CLASS4660) (?:A|AAAA|SRV|KX|PX|HTTPS)) \\# "


@unittest.skipUnless(dns, "there is no dnspython")
class Wholes(unittest.TestCase):
    def compare(self, ours: Parts, theirs: Parts) -> None:
        for field in Parts._fields:
            self.assertEqual(getattr(ours, field), getattr(theirs, field), field)

    def test_it_says_what_dnspython_reads(self):
        seen = set()
        for seed in range(COMPARED):
            octets = Whole(seed).octets()
            with self.subTest(seed=seed):
                text = Message(octets).to_text()
                ours = parts_of(text)
                self.compare(ours, parts_by_dnspython(octets))
                headings = re.findall(r"^;; (\w+) SECTION$", text, re.MULTILINE)
                self.assertEqual(headings, list(HEADINGS))
                # Octets (RFC 3597, 5) for the type without a form, and in other classes for types that have one in IN alone.
                self.assertEqual(text.count(r" \# "), len(re.findall(WITHOUT_FORM, text)))
                seen |= {("opcode", ours.opcode), ("rcode", ours.rcode), *ours.flags}
                seen |= {("class", it[1]) for it in ours.questions}
                seen |= {("class", it[2], it[4] == b"") for it in sum(ours.records, [])}
        self.assertLessEqual({("opcode", it) for it in range(16)} | {("rcode", it) for it in range(24)}, seen)
        self.assertLessEqual({"qr", "aa", "tc", "rd", "ra", "ad", "cd", ("class", ANY), ("class", NONE)}, seen)
        self.assertLessEqual({("class", it, bare) for it in (ANY, NONE) for bare in (True, False)}, seen)

    @unittest.skipUnless(shutil.which("dig"), "there is no dig")
    def test_it_says_what_dig_says(self):
        wholes = {seed: ForDig(seed) for seed in range(COMPARED)}
        messages = {seed: whole.octets() for seed, whole in wholes.items()}
        with Server(messages) as server:
            texts = texts_by_dig(wholes, server.port)
        self.assertEqual(len(texts), COMPARED)
        told = {seed: text for seed, text in enumerate(texts) if text}
        self.assertGreater(len(told), COMPARED * 3 // 4)
        for seed, text in told.items():
            with self.subTest(seed=seed):
                ours = parts_of(Message(server.sent[seed]).to_text())
                self.compare(ours, parts_of(in_our_words(text)))

    def test_an_owner_is_as_in_a_zone(self):
        """An owner that begins with a semicolon is no comment (RFC 1035, 5.1), and what follows the last record is told."""
        owner = dns.name.Name([b';"a"()@$', b""])
        octets = bytes.fromhex("0007 8180 0000 0001 0000 0000") + owner.to_wire()
        octets += bytes.fromhex("0001 0001 0000003c 0004 c0000201") + b"end"
        lines = Message(octets).to_text().splitlines()
        self.assertEqual(lines[4], r"\;\"a\"\(\)\@\$. 60 IN A 192.0.2.1")
        self.assertEqual(record_of(lines[4]), (owner.labels, 60, IN, A, bytes.fromhex("c0000201")))
        self.assertEqual(lines[5:], [";; AUTHORITY SECTION", ";; ADDITIONAL SECTION", "; trailing octets: 3"])

    def test_a_second_opt_record(self):
        """A message has one at most (RFC 6891, 6.1.1): dnspython refuses such a message, while its text shows both."""
        opt = bytes.fromhex("00 0029 04d0 00000000 0000")
        octets = bytes.fromhex("0007 8180 0000 0000 0000 0002") + opt + opt
        with self.assertRaises(dns.exception.FormError):
            dns.message.from_wire(octets)
        lines = Message(octets).to_text().splitlines()[-3:]
        shown = "; EDNS: version: 0, flags:; udp: 1232"
        self.assertEqual(lines, [shown, "; another OPT record: FORMERR, RFC 6891 6.1.1", shown])


if __name__ == "__main__":
    unittest.main()
