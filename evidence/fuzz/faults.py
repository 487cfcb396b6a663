#!/usr/bin/python3 -B
"""Plants small faults, one after another, in plain C code with the library's calls (bindings/c/check/second.c), and
tells which of them the kept inputs notice: faults.py WORK. The last line has how many were noticed."""

import subprocess
import sys
from pathlib import Path

HERE = Path(__file__).resolve().parent
C = HERE.parent.parent / "bindings" / "c"
HARNESSES = ["read", "skip", "text", "order", "compress", "build"]

# What stands once in the code, and what is put in its place.
FAULTS = [
    ("offset >= octets_len", "offset > octets_len"),
    ("first < 64", "first <= 64"),
    ("octets_len - offset - 1 >= first", "octets_len - offset >= first"),
    ("first < 192", "first < 128"),
    ("octets_len - offset >= 2", "octets_len - offset >= 1"),
    ("(first & 63) << 8", "(first & 31) << 8"),
    ("len + 1 + head.len + 1 > 255", "len + 1 + head.len + 1 > 256"),
    ("len + 1 + head.len + 1 > 255", "len + 1 + head.len + 1 >= 255"),
    ("head.target >= offset ||", "head.target > offset ||"),
    ("pointers == limit", "pointers > limit"),
    ("if (pointers == 0)\n                behind", "behind"),
    ("if (len > 0)\n                scattered", "scattered"),
    ("pointers ? behind : offset + 1", "offset + 1"),
    ("if (capacity < len)", "if (capacity <= len)"),
    ("if (len + 1 > 255)", "if (len + 1 > 254)"),
    ("if (len + 1 + head.len > 255)", "if (len + 1 + head.len > 256)"),
    ("offset + 1 == len ?", "offset + 1 <= len ?"),
    ("if (len > 255)", "if (len > 256)"),
    ("c < 32 || c > 126 ? DNSNAMES_BAD_SYMBOL", "c < 33 || c > 126 ? DNSNAMES_BAD_SYMBOL"),
    ("c < 32 || c > 126 ? DNSNAMES_BAD_SYMBOL", "c < 32 || c > 127 ? DNSNAMES_BAD_SYMBOL"),
    ("value > 255 ?", "value > 256 ?"),
    ("octet == '.' && !escaped", "octet == '.'"),
    ("escaped == 1 && open == 0", "escaped == 1"),
    ("escaped == 1 && open == 0", "escaped && open == 0"),
    ("head + 1 + open + 1 > 254", "head + 1 + open + 1 > 255"),
    ("open + 1 > 63", "open + 1 > 64"),
    ("if (c < 32 || c > 126) {", "if (c < 32 || c > 127) {"),
    ("final_dot || len == 1 ? size : size - 1", "size"),
    ("c <= 'Z' ?", "c < 'Z' ?"),
    ("low(left[k]) < low(right[k]) ?", "(signed char)low(left[k]) < (signed char)low(right[k]) ?"),
    ("return (left[0] > right[0]) - (left[0] < right[0]);", "return 0;"),
    ("return (i > 0) - (j > 0);", "return i > 0;"),
    ("for (i = 0; i < count; i++)", "for (i = 0; i + 1 < count; i++)"),
    ("sip_hash(key, lowered, size)", "sip_hash(key, name, size)"),
    ("at += 1 + (size_t)name[at]) {\n        if (find", "at++) {\n        if (find"),
    ("for (i = 0; i < table_len; i++) {\n        if (walk", "for (i = table_len; i-- > 0;) {\n        if (walk"),
    ("new_len > capacity", "new_len >= capacity"),
    ("(uint8_t)(192 + offset / 256)", "192"),
    ("*table_len < 128 &&", "*table_len < 127 &&"),
    ("old_len + at < 16384", "old_len + at <= 16384"),
    ("number16(message + 10)", "number16(message + 8)"),
    ("if (message_len - at < 4)", "if (message_len - at <= 4)"),
    ("if (message_len - at < 10)", "if (message_len - at < 9)"),
    ("message_len - at - 10 < len", "message_len - at - 10 <= len"),
    ("type > 15 ||", "type > 33 ||"),
    ("0xc000u + offset", "0xc000u + offset + 1"),
    ("(uint32_t)(s.len - before_data)", "(uint32_t)data_len"),
]


def build(work, source):
    """Links all harnesses with the code; they themselves are compiled once."""
    def clang(*words):
        subprocess.run(["clang", "-O1", f"-I{C}", *words], check=True)
    (work / "second.c").write_text(source)
    clang("-std=c99", "-w", "-DSECOND(call)=dnsnames_##call", f"-I{C / 'check'}", "-c",
          "-o", work / "second.o", work / "second.c")
    for harness in HARNESSES:
        if not (work / f"{harness}.o").exists():
            clang("-std=gnu11", "-fsanitize=fuzzer", "-c", "-o", work / f"{harness}.o", HERE / f"{harness}.c")
        clang("-fsanitize=fuzzer", "-o", work / harness, work / f"{harness}.o", work / "second.o")


def notices(work, harness):
    inputs = sorted((HERE / "corpus" / harness).iterdir())
    return subprocess.run([work / harness, *inputs], capture_output=True, check=False).returncode != 0


def main():
    work = Path(sys.argv[1]).resolve()
    work.mkdir(parents=True, exist_ok=True)
    for old in work.glob("*.o"):
        old.unlink()
    code = (C / "check" / "second.c").read_text()
    build(work, code)
    if any(notices(work, harness) for harness in HARNESSES):
        sys.exit("the kept inputs fail without a fault")
    noticed = 0
    for old, new in FAULTS:
        if code.count(old) != 1:
            sys.exit(f"stands {code.count(old)} times: {old}")
        build(work, code.replace(old, new))
        by = next((harness for harness in HARNESSES if notices(work, harness)), None)
        noticed += by is not None
        print(f"{'noticed by ' + by if by else 'NOT NOTICED'}: {' '.join(new.split())}", flush=True)
    print(f"{noticed} of {len(FAULTS)} faults noticed")


if __name__ == "__main__":
    main()
