"""Asks drivers, and outlives those that die or hang."""

import os
import select
import subprocess
import threading
from dataclasses import dataclass
from pathlib import Path

DIED, HUNG = "died", "hung"


@dataclass
class Library:
    key: str            # of the driver, and of the tables' columns
    name: str
    package: str        # of Debian
    version: str = ""
    driver: str = ""
    missing: str = ""   # why there is no driver


def libraries(work):
    """All libraries of the comparison; those that weren't built say why."""
    res = [
        Library("this", "this project, by its library for C (libdnsnames_c.a)", ""),
        Library("domain", "the Rust crate `domain`, names and wire layer", ""),
        Library("knot", "libknot", "libknot-dev"),
        Library("ldns", "ldns", "libldns-dev"),
        Library("trust", "trust-dns-proto (Rust)", "librust-trust-dns-proto-dev"),
        Library("dnspython", "dnspython (Python)", "python3-dnspython"),
        Library("libc", "`dn_expand` and its kin of the GNU C library (libresolv)", "libc6-dev"),
        Library("cares", "c-ares", "libc-ares-dev"),
        Library("gonet", "`dnsmessage` of golang.org/x/net (Go), by its inner calls", "golang-golang-x-net-dev"),
        Library("miekg", "miekg/dns (Go)", "golang-github-miekg-dns-dev"),
        Library("netdns", "Net::DNS (Perl)", "libnet-dns-perl"),
    ]
    for library in res:
        driver, missing = Path(work, "drivers", library.key), Path(work, "missing", library.key)
        if driver.exists():
            library.driver = str(driver)
            version = ask(library, ["version"])[0]
            library.version = version[3:] if version.startswith("ok ") else version
        else:
            library.missing = missing.read_text().strip() if missing.exists() else "run evidence/compare/build.sh"
    return res


class Driver:
    """A running driver that is fed lines, and whose answers come with a limit of time for each."""

    def __init__(self, path, lines):
        pipe, null = subprocess.PIPE, subprocess.DEVNULL
        self.process = subprocess.Popen([path], stdin=pipe, stdout=pipe, stderr=null)
        self.rest = b""
        data = "".join(line + "\n" for line in lines).encode()
        threading.Thread(target=self.feed, args=(data,), daemon=True).start()

    def feed(self, data):
        try:
            self.process.stdin.write(data)
            self.process.stdin.close()
        except (BrokenPipeError, ValueError):
            pass

    def answer(self, seconds):
        """The next line, DIED or HUNG."""
        while b"\n" not in self.rest:
            if not select.select([self.process.stdout], [], [], seconds)[0]:
                return HUNG
            data = os.read(self.process.stdout.fileno(), 1 << 16)
            if not data:
                return DIED
            self.rest += data
        line, self.rest = self.rest.split(b"\n", 1)
        return line.decode()

    def end(self):
        self.process.kill()
        self.process.wait()
        self.process.stdout.close()


def ask(library, lines, seconds=5, failures=20):
    """The answer to each line. A driver that dies, or takes longer than so many seconds for one answer, is started
    again behind that line; after so many such failures what is left has no answer (None)."""
    answers = []
    while len(answers) < len(lines) and failures > 0:
        driver = Driver(library.driver, lines[len(answers):])
        while len(answers) < len(lines):
            answers.append(driver.answer(seconds))
            if answers[-1] in (DIED, HUNG):
                failures -= 1
                break
        driver.end()
    return answers + [None] * (len(lines) - len(answers))
