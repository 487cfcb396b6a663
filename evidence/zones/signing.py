"""The zones of beside_servers.py that are signed: which texts they are, and how ldns signs them with NSEC."""

import pathlib
import re
import shutil
import subprocess
import tempfile

import texts

TOOL, ONE, TWO = "ldns-signzone", ["ECDSAP256SHA256"], ["ECDSAP256SHA256", "ED25519"]
FROM, UNTIL = "20260101000000", "20380101000000"
# ldns reads no units of TTLs, nor writes all special characters so that others read them. Two zones have keys or
# signatures of their own.
LEFT_OUT = {"special characters", "types", "RRSIGs of different TTLs", "units of TTLs"}
DRAWN = range(5, 13)
HIGH_NSEC = "NSEC with a TTL above the SOA's, signed"

CORNERS = """@ MX 10 mail.~.
mail A 192.0.2.2
*.w TXT "w"
*.w MX 10 mail.~.
*.a.w A 192.0.2.3
b.a.w TXT "b"
*.x.*.w TXT "below an asterisk"
*.*.v A 192.0.2.4
z.*.u TXT "an asterisk that owns nothing"
a.b.c.d A 192.0.2.5
ins NS ns.ins.~.
ns.ins A 192.0.2.6
sec NS ns.sec.~.
sec DS 1 13 2 0000000000000000000000000000000000000000000000000000000000000000
sec DS 1 13 4 {long}
ns.sec A 192.0.2.7
ns.sec AAAA 2001:db8::7
own NS own.~.
own A 192.0.2.8
own TXT "occluded"
iout NS ns.example.net.
sout NS ns.example.net.
sout DS 1 13 2 0000000000000000000000000000000000000000000000000000000000000000
sib NS ns.sec.~.
sib NS mail.~.
a.b.deep NS ns.sec.~.
cut.w NS ns.example.net.
inner.sec NS ns.inner.sec.~.
inner.sec DS 1 13 2 0000000000000000000000000000000000000000000000000000000000000000
ns.inner.sec A 192.0.2.9
dn DNAME w.~.
dn TXT "beside a DNAME"
dn2 DNAME dn.~.
dout DNAME example.net.
dsec DNAME sec.~.
dins DNAME ins.~.
dgone DNAME none.~.
dent DNAME c.d.~.
c1 CNAME c2.~.
c2 CNAME c3.~.
c3 A 192.0.2.10
cout CNAME www.example.net.
cw CNAME foo.w.~.
cgone CNAME gone.none.~.
cdata CNAME a.b.c.d.~.
cent CNAME c.d.~.
cu CNAME foo.u.~.
csec CNAME x.sec.~.
cins CNAME ins.~.
cdn CNAME foo.dn2.~.
*.wc CNAME foo.w.~.
*.wo CNAME www.example.net.
*.wg CNAME none.~.
*.wd CNAME x.dn.~.
*.ws CNAME x.sec.~.
*.wi CNAME ins.~.
*.wn CNAME c.d.~.
*.wl CNAME x.wl.~.
*.ww CNAME foo.wc.~.
l1 CNAME l2.~.
l2 CNAME l1.~.
""".replace("{long}", "00" * 48)
APEX_WILDCARD = """* CNAME x.w.~.
*.w A 192.0.2.2
cut NS ns.cut.~.
ns.cut A 192.0.2.3
"""
# The zone owns no more than its apex, which redirects all names below it.
APEX_DNAME = """$ORIGIN ~.
~. 3600 IN SOA ns.example.net. host.example.net. 7 86400 7200 2419200 300
~. 3600 NS ns.example.net.
~. 3600 DNAME to.example.net.
"""
APEX_ALONE = APEX_DNAME.replace("~. 3600 DNAME to.example.net.\n", "")


def zones():
    """The zones: a name, the apex, the text and the algorithms of the keys."""
    for name, apex, text in texts.zones():
        if name not in LEFT_OUT:
            yield f"{name}, signed", apex, text, ONE
    for seed in DRAWN:
        yield f"drawn {seed}, signed", f"d{seed}.test.", own(texts.drawn(seed), f"d{seed}.test"), ONE
    yield "corners, signed", "corners.test.", own(CORNERS, "corners.test"), ONE
    yield "corners, signed by two algorithms", "two.test.", own(CORNERS, "two.test"), TWO
    yield "a wildcard below the apex, signed", "star.test.", own(APEX_WILDCARD, "star.test"), ONE
    yield "a DNAME at the apex, signed", "dname.test.", APEX_DNAME.replace("~", "dname.test"), ONE
    yield "an apex alone, signed", "alone.test.", APEX_ALONE.replace("~", "alone.test"), TWO
    yield HIGH_NSEC, "ttl.test.", own(CORNERS, "ttl.test"), ONE


def own(text, apex):
    return (texts.HEAD + texts.OWN_ADDRESS + text).replace("~", apex)


def can_sign():
    return bool(shutil.which(TOOL))


def version():
    said = subprocess.run([TOOL, "-v"], capture_output=True, text=True, check=False)
    return re.search(r"\d+(?:\.\d+)+", said.stdout + said.stderr)[0]


def with_lower_minimum(text):
    """The zone with a lower MINIMUM, so that the TTLs of its NSEC records are higher than those of negative
    responses, as signers before RFC 9077 may give them. No server verifies the signature of the SOA."""
    return re.sub(r"(\tSOA\t.*) 300$", r"\1 60", text, flags=re.M)


def signed(text, apex, algorithms):
    """The zone, signed with new keys and NSEC."""
    with tempfile.TemporaryDirectory(prefix="servers-") as folder:
        how = {"cwd": folder, "check": True, "capture_output": True, "text": True}
        pathlib.Path(folder, "zone").write_text(text)
        made = (subprocess.run(["ldns-keygen", "-a", it, "-k", apex], **how) for it in algorithms)
        keys = [it.stdout.strip() for it in made]
        subprocess.run([TOOL, "-A", "-i", FROM, "-e", UNTIL, "-o", apex, "-f", "signed", "zone", *keys], **how)
        return pathlib.Path(folder, "signed").read_text()
