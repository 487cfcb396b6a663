"""The zones that beside_servers.py has as texts, and the questions to each. What is drawn at random has a fixed seed.

In a text, ~ stands for the apex without its final dot. Names in data are absolute, except in RELATIVE."""

import hashlib
import random

import dns.name
import dns.rdatatype
from zone import target_of

HEAD = """$ORIGIN ~.
$TTL 3600
@ IN SOA ns.~. host.~. 7 86400 7200 2419200 300
@ NS ns.~.
"""
OWN_ADDRESS = "ns A 192.0.2.1\n"
ALWAYS = "A AAAA NS SOA MX TXT CNAME DS NSEC ANY TYPE65280".split()
# NSD 4.6 reads no name that ends in two backslashes.
SPECIAL = [r"a\.b", r"a\ b", r"\000", r"\255\128", r"\"q\"", r"\;", r"\(p\)", r"\@", r"\$x", r"\\x", r"\092"]
SPECIAL += ["_s", "-", "0", "0-9"]

# RFC 4592, 2.2.1.
WILDCARDS = """$ORIGIN example.
example. 3600 IN SOA ns.example.com. host.example.com. 1 86400 7200 2419200 300
example. 3600 NS ns.example.com.
example. 3600 NS ns.example.net.
*.example. 3600 TXT "this is a wildcard"
*.example. 3600 MX 10 host1.example.
sub.*.example. 3600 TXT "this is not a wildcard"
host1.example. 3600 A 192.0.2.1
_ssh._tcp.host1.example. 3600 SRV 0 0 22 host1.example.
_ssh._tcp.host2.example. 3600 SRV 0 0 22 host2.example.
subdel.example. 3600 NS ns.example.com.
subdel.example. 3600 NS ns.example.net.
"""
# RFC 1034, 6.1: the zone of the root, and that of EDU.
ROOT = """$ORIGIN .
$TTL 86400
. IN SOA SRI-NIC.ARPA. HOSTMASTER.SRI-NIC.ARPA. 870611 1800 300 604800 86400
 NS A.ISI.EDU.
 NS C.ISI.EDU.
 NS SRI-NIC.ARPA.
MIL. NS SRI-NIC.ARPA.
 NS A.ISI.EDU.
EDU. NS SRI-NIC.ARPA.
 NS C.ISI.EDU.
SRI-NIC.ARPA. A 26.0.0.73
 A 10.0.0.51
 MX 0 SRI-NIC.ARPA.
 HINFO DEC-2060 TOPS20
ACC.ARPA. A 26.6.0.65
 HINFO PDP-11/70 UNIX
 MX 10 ACC.ARPA.
USC-ISIC.ARPA. CNAME C.ISI.EDU.
73.0.0.26.IN-ADDR.ARPA. PTR SRI-NIC.ARPA.
65.0.6.26.IN-ADDR.ARPA. PTR ACC.ARPA.
51.0.0.10.IN-ADDR.ARPA. PTR SRI-NIC.ARPA.
52.0.0.10.IN-ADDR.ARPA. PTR C.ISI.EDU.
103.0.3.26.IN-ADDR.ARPA. PTR A.ISI.EDU.
A.ISI.EDU. A 26.3.0.103
C.ISI.EDU. A 10.0.0.52
"""
EDU = """$ORIGIN EDU.
$TTL 86400
EDU. IN SOA SRI-NIC.ARPA. HOSTMASTER.SRI-NIC.ARPA. 870729 1800 300 604800 86400
 NS SRI-NIC.ARPA.
 NS C.ISI.EDU.
UCI 172800 NS ICS.UCI.EDU.
 172800 NS ROME.UCI.EDU.
ICS.UCI 172800 A 192.5.19.1
ROME.UCI 172800 A 192.5.19.31
ISI 172800 NS VAXA.ISI.EDU.
 172800 NS A.ISI.EDU.
 172800 NS VENERA.ISI.EDU.
VAXA.ISI 172800 A 10.2.0.27
 172800 A 128.9.0.33
VENERA.ISI.EDU. 172800 A 10.1.0.52
 172800 A 128.9.0.32
A.ISI 172800 A 26.3.0.103
UDEL.EDU. 172800 NS LOUIE.UDEL.EDU.
 172800 NS UMN-REI-UC.ARPA.
LOUIE.UDEL.EDU. 172800 A 10.0.0.96
 172800 A 192.5.39.3
YALE.EDU. 172800 NS YALE.ARPA.
 172800 NS YALE-BULLDOG.ARPA.
MIT.EDU. 43200 NS XX.LCS.MIT.EDU.
 43200 NS ACHILLES.MIT.EDU.
XX.LCS.MIT.EDU. 43200 A 10.0.0.44
ACHILLES.MIT.EDU. 43200 A 18.72.0.8
"""
BELOW_WILDCARDS = """*.a TXT "a"
x.*.a TXT "below an asterisk"
y.x.a A 192.0.2.2
*.b CNAME x.b.~.
*.c CNAME x.d.~.
*.d CNAME x.c.~.
*.e CNAME www.example.net.
*.f CNAME gone.g.~.
*.g.h.i A 192.0.2.3
*.*.j A 192.0.2.4
*.k SRV 0 0 22 ns.~.
"""
EMPTY = """a.b.c.d A 192.0.2.2
*.x.y TXT "*"
z.w.*.v TXT "z"
a.cut.u NS ns.example.net.
p.q CNAME b.c.d.~.
r CNAME y.~.
s CNAME none.~.
"""
GLUE = """one NS ns.one.~.
ns.one A 192.0.2.2
ns.one AAAA 2001:db8::2
two NS a.ns.two.~.
two NS b.ns.two.~.
a.ns.two 60 A 192.0.2.3
b.ns.two 120 AAAA 2001:db8::3
three NS three.~.
three A 192.0.2.4
three TXT "occluded"
x.three CNAME www.~.
four NS ns.one.~.
four NS ns.example.net.
four DS 1 13 2 0000000000000000000000000000000000000000000000000000000000000000
inner.one NS ns.inner.one.~.
ns.inner.one A 192.0.2.5
*.one A 192.0.2.6
dn.one DNAME elsewhere.~.
www A 192.0.2.7
toone CNAME www.one.~.
"""
NO_GLUE = """one NS ns.one.~.
two NS ns.example.net.
two NS ns.example.com.
three NS host.~.
three NS alias.~.
three NS x.wild.~.
three NS under.dname.~.
host A 192.0.2.2
host AAAA 2001:db8::2
alias CNAME host.~.
*.wild A 192.0.2.3
dname DNAME host.~.
four NS ns.three.~.
ns.three A 192.0.2.4
five NS *.wild.~.
a.b.six NS ns.~.
toone CNAME one.~.
totwo CNAME a.b.c.two.~.
sub DNAME two.~.
"""
DNAMES = """a DNAME b.~.
x.b A 192.0.2.2
*.y.b A 192.0.2.3
c DNAME a.~.
out DNAME example.net.
d TXT "beside a DNAME"
d DNAME d2.~.
gone DNAME none.~.
cut DNAME deleg.~.
deleg NS ns.deleg.~.
ns.deleg A 192.0.2.4
loop DNAME loop.~.
l1 DNAME l2.~.
l2 DNAME l1.~.
top DNAME .
apex DNAME ~.
wild DNAME star.~.
*.star TXT "star"
calias CNAME x.a.~.
t60 60 DNAME b.~.
"""
# The first makes a name too long at once, and the second after a few turns.
DNAMES += f"long DNAME {'.'.join([it * 62 for it in 'pqr'] + ['s' * 40])}.~.\ngrow DNAME {'g' * 60}.grow.~.\n"
LOOPS = """self CNAME self.~.
a1 CNAME a2.~.
a2 CNAME a1.~.
b1 CNAME b2.~.
b2 CNAME b3.~.
b3 CNAME b1.~.
in CNAME b1.~.
*.w CNAME w.~.
w CNAME x.w.~.
up CNAME UP2.~.
up2 CNAME uP.~.
out CNAME www.example.net.
above CNAME test.
nodata CNAME ns.~.
gone CNAME none.~.
apex CNAME ~.
"""
CASES = """WwW A 192.0.2.2
wWw AAAA 2001:db8::2
MiXeD CNAME wWW.~.
*.Wild TXT "UPPER lower"
CuT NS nS.cUt.~.
Ns.CuT A 192.0.2.3
Dn DNAME wILD.~.
Mx MX 10 WWW.~.
"""
TYPES = r"""a A 192.0.2.2
a AAAA 2001:DB8:0:0:1:0:0:1
aaaa AAAA ::ffff:192.0.2.1
mx MX 10 a.~.
mx MX 20 b.example.
txt TXT "" "two words" plain "\"\\\000\255"
txt TXT ( "in"
 lines ) ; of two lines
hinfo HINFO "a cpu" OS
rp RP a.~. txt.~.
afsdb AFSDB 1 a.~.
srv SRV 1 2 3 a.~.
naptr NAPTR 100 50 "s" "http+I2L+I2C" "" _http._tcp.~.
kx KX 10 a.~.
ds DS 60485 5 1 2BB183AF5F22588179A53B0A98631FAD1A292118
ds NS ns.example.net.
sshfp SSHFP 2 1 123456789abcdef67890123456789abcdef67890
tlsa TLSA 0 0 1 d2abde240d7cd3ee6b4b28c54df034b9 7983a1d16e8a410e4561cb106618e971
caa CAA 0 issue "ca.example.net; account=230123"
uri URI 10 1 "ftp://ftp1.example.com/public"
ptr PTR a.~.
spf SPF "v=spf1 -all"
loc TYPE29 \# 16 00121613898bb1c8800b0f6800989680
new TYPE65280 \# 4 0a000001
new TYPE65281 \# 0
key DNSKEY 256 3 13 oJMRESz5E4gYzS/q6XDrvU1qMPYIjCWzJaOau8XNEZeqCYKD5ar0IRd8KqXXFJkqmVfRvMGPmM1x8fGAa2XhSA==
eui TYPE108 \# 6 00005e00532a
openpgp OPENPGPKEY mQENBFVHm5sBCADE
"""
ADDITIONAL = """@ MX 10 mail.~.
@ NS ns2.~.
ns2 AAAA 2001:db8::2
mail A 192.0.2.3
mail AAAA 2001:db8::3
mx MX 10 mail.~.
mx MX 20 alias.~.
mx MX 30 x.wild.~.
mx MX 40 ns.cut.~.
alias CNAME mail.~.
*.wild A 192.0.2.4
cut NS ns.cut.~.
ns.cut A 192.0.2.5
srv SRV 0 0 1 mail.~.
*.wmx MX 10 mail.~.
cmx CNAME mx.~.
kx KX 1 mail.~.
"""
TTLS = """$ORIGIN ~.
$TTL 1h30m
@ 1d IN SOA ns.~. host.~. 7 1d 2h 4w 1h
@ NS ns.~.
ns 0 A 192.0.2.1
a A 192.0.2.2
b IN 2w A 192.0.2.3
c 2147483647 IN A 192.0.2.4
$TTL 60
d A 192.0.2.5
e CNAME d.~.
f 5 DNAME g.~.
x.g 7 A 192.0.2.6
*.h 9 CNAME none.~.
cut 11 NS ns.cut.~.
ns.cut 13 A 192.0.2.7
"""
# Names in data go on with the origin of their line.
RELATIVE = """$ORIGIN ~.
$TTL 3600
@ IN SOA ns host 7 86400 7200 2419200 300
  NS ns
  NS ns.sub
  MX 10 mail
  MX 20 @
ns A 192.0.2.1
mail A 192.0.2.2
www CNAME mail
up CNAME @
cut NS ns.cut
cut NS ns
ns.cut A 192.0.2.3
dn DNAME sub
rp RP host.mail note
*.w CNAME www
*.v SRV 0 0 1 mail
$ORIGIN sub.~.
@ MX 10 mail
mail A 192.0.2.4
ns A 192.0.2.5
www CNAME mail
out CNAME mail.~.
there CNAME mail.sub
cut NS ns.cut
ns.cut AAAA 2001:db8::5
naptr NAPTR 100 50 "s" "http+I2L+I2C" "" _http._tcp
$ORIGIN test.
mail.~. TXT "its origin is above the apex"
to.sub.~. CNAME mail.sub.relative
a.~. KX 1 mail.relative
"""
LOW_SOA = """$ORIGIN ~.
~. 30 IN SOA ns.~. host.~. 7 86400 7200 2419200 300
~. 3600 NS ns.~.
*.w 3600 TXT "w"
a 3600 CNAME none.~.
"""
SIGNED = """a A 192.0.2.2
*.w TXT "w"
cut NS ns.cut.~.
ns.cut A 192.0.2.3
sec NS ns.example.net.
sec DS 1 13 2 0000000000000000000000000000000000000000000000000000000000000000
dn DNAME w.~.
c CNAME a.~.
e.n.t A 192.0.2.4
"""
# RRSIGs of one owner with different TTLs: each has that of the RRset it covers (RFC 4034, 3).
SIGNATURES = """a 100 A 192.0.2.2
a 200 TXT "t"
a 300 MX 10 a.~.
a 100 RRSIG A 8 3 100 20380101000000 20200101000000 1 ~. AAAA
a 200 RRSIG TXT 8 3 200 20380101000000 20200101000000 1 ~. AAAB
a 300 RRSIG MX 8 3 300 20380101000000 20200101000000 1 ~. AAAC
*.w 50 TXT "w"
*.w 60 A 192.0.2.3
*.w 50 RRSIG TXT 8 3 50 20380101000000 20200101000000 1 ~. AAAA
*.w 60 RRSIG A 8 3 60 20380101000000 20200101000000 1 ~. AAAB
only 70 RRSIG A 8 3 70 20380101000000 20200101000000 1 ~. AAAA
only 80 RRSIG TXT 8 3 80 20380101000000 20200101000000 1 ~. AAAB
"""


def large():
    """RRsets that don't fit a datagram, and addresses of name servers that do or don't."""
    lines = [f"long TXT \"{it:099}\"" for it in range(40)] + [f"some TXT \"{it:019}\"" for it in range(20)]
    lines += [f"many NS {it:040}.example.net." for it in range(12)]
    for it in range(4):
        lines.append(f"below NS ns{it}.below.~.")
        lines += [f"ns{it}.below A 192.0.2.{at}" for at in range(5)]
        lines += [f"ns{it}.below AAAA 2001:db8::{at}" for at in range(5)]
    lines += [f"beside NS {it}.~." for it in ("ns.beside", "a.addresses", "b.addresses")]
    lines += ["ns.beside A 192.0.2.3", "b.addresses A 192.0.2.4", "to CNAME some.~.", "d DNAME below.~."]
    return "\n".join(lines + [f"a.addresses AAAA 2001:db8:{it}::" for it in range(16)]) + "\n"


def wildcards_of_depth(depth):
    """A wildcard at each depth, and another name beside each."""
    lines = []
    for count in range(depth):
        below = "".join(f".l{it}" for it in reversed(range(count)))
        lines += [f"*{below} TXT \"{count}\"", f"only{below} A 192.0.2.{count + 2}"]
    return "\n".join([*lines, "x.y.z.l1.l0 A 192.0.2.99"]) + "\n"


def chains(most):
    """Chains of 1 to `most` CNAMEs, which end at an address."""
    return "".join(f"c{it} CNAME c{it - 1}.~.\n" for it in range(1, most + 1)) + "c0 A 192.0.2.2\n"


def deep():
    """Names of 255 octets and of 127 labels, and empty non-terminals above them."""
    lines = [".".join(["a"] * 120) + " A 192.0.2.2", ".".join([letter * 60 for letter in "bcd"] + ["e" * 58])]
    return lines[0] + "\n" + lines[1] + " TXT \"long\"\n" + ".".join(["*"] + ["f"] * 100) + " TXT \"deep\"\n"


def drawn(seed, wanted=60):
    """Random records of a zone, without those that can't be beside the others."""
    draw, kept = random.Random(seed), {}
    labels = ["a", "b", "c", "*", "a", "b"]
    for _ in range(wanted):
        owner = ".".join(draw.choice(labels) for _ in range(draw.randint(1, 4)))
        rtype = draw.choice("A A TXT MX NS CNAME DNAME DS".split())
        target = ".".join([*(draw.choice(labels[:3]) for _ in range(draw.randint(1, 3))), "~."])
        data = {"A": f"192.0.2.{draw.randint(1, 254)}", "TXT": f"t{draw.randint(1, 9)}", "MX": f"1 {target}"}
        data = data.get(rtype, "1 13 2 " + "00" * 32 if rtype == "DS" else target)
        if may_be_added(kept, owner, rtype):
            kept.setdefault(owner, {}).setdefault(rtype, data)
    return "".join(f"{owner} {rtype} {data}\n" for owner, sets in kept.items() for rtype, data in sets.items())


def may_be_added(kept, owner, rtype):
    """Whether all servers load a zone with this RRset more (RFC 2181, 10.1; RFC 4592, 4; RFC 6672, 2.3 and 2.4)."""
    sets = kept.get(owner, {})
    below_dname = any("DNAME" in it and owner.endswith("." + above) for above, it in kept.items())
    above_names = any(it.endswith("." + owner) for it in kept)
    if "CNAME" in sets or (rtype == "CNAME" and sets) or below_dname or (rtype == "DNAME" and above_names):
        return False
    if rtype in ("NS", "DNAME") and owner.startswith("*"):
        return False
    return not {rtype, *sets} >= {"NS", "DNAME"} and (rtype != "DS" or "NS" in sets)


def zones():
    """The zones: a name, the apex and the text."""
    own = {
        "wildcards at each depth": wildcards_of_depth(6),
        "aliases of wildcards": BELOW_WILDCARDS,
        "empty non-terminals": EMPTY,
        "delegations with glue": GLUE,
        "delegations without glue": NO_GLUE,
        "DNAMEs": DNAMES,
        "chains of CNAMEs": chains(20),
        "loops of CNAMEs": LOOPS,
        "special characters": "".join(f"{it} TXT \"{at}\"\n*.{it} A 192.0.2.2\n" for at, it in enumerate(SPECIAL)),
        "mixed case": CASES,
        "types": TYPES,
        "additional addresses": ADDITIONAL,
        "long names": deep(),
        "signed": SIGNED,
        "RRSIGs of different TTLs": SIGNATURES,
        "large RRsets": large(),
        **{f"drawn {seed}": drawn(seed) for seed in range(1, 5)},
    }
    yield "RFC 4592, 2.2.1", "example.", WILDCARDS
    yield "RFC 1034, 6.1: the root", ".", ROOT
    yield "RFC 1034, 6.1: EDU", "EDU.", EDU
    for number, (name, text) in enumerate(own.items()):
        yield name, f"z{number}.test.", (HEAD + OWN_ADDRESS + text).replace("~", f"z{number}.test")
    yield "units of TTLs", "ttl.test.", TTLS.replace("~", "ttl.test")
    yield "an SOA with a low TTL", "soa.test.", LOW_SOA.replace("~", "soa.test")
    yield "relative names in data", "relative.test.", RELATIVE.replace("~", "relative.test")


def asked_names(apex, owners, targets):
    """Names at, above, below and beside owners and targets, in and out of the zone."""
    names = {apex, dns.name.from_text("not.here.invalid.")}
    for it in {*owners, *targets}:
        while it.is_subdomain(apex) and it != apex:
            names.add(it)
            it = it.parent()
    for it in sorted(names):
        first = it.labels[0]
        beside = [first[:-1] + b"~"] if first else []
        for labels in [(b"x",), (b"*",), (b"w", b"*"), (b"y", b"X")]:
            names |= joined(labels, it)
        for label in beside:
            names |= joined((label,), it.parent())
    return names


def joined(labels, suffix):
    try:
        return {dns.name.Name((*labels, *suffix.labels))}
    except dns.name.NameTooLong:
        return set()


def questions(zone, most):
    """At most `most` questions: each owner with its types, then the others in the order of a hash."""
    types = {*map(dns.rdatatype.from_text, ALWAYS), *(it[2] for it in zone.records)}
    names = asked_names(zone.apex, zone.owners, {target_of(it[3]) for it in zone.records} - {None})
    first = sorted({(it[0], it[2]) for it in zone.records})
    rest = {(it, rtype) for it in names for rtype in types} - {*first}
    return [*first, *sorted(rest, key=lambda it: place(zone.apex, *it))][:most]


def place(apex, name, rtype):
    said = repr((apex.to_text(), name.to_text().lower(), int(rtype)))
    return hashlib.sha256(said.encode()).digest()
