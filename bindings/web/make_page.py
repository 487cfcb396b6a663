#!/usr/bin/env python3
"""Makes one file of the page, its script, the proved module and its copy with 32-bit memory, which opens from a disk
without a server.

    make_page.py MODULE NARROWED PAGE

MODULE is dnsnames_c.wasm, NARROWED its copy that narrow.py makes; PAGE is what is written. Beside a web server
index.html, dnsnames.mjs and the modules do as they are.
"""

import base64
import pathlib
import re
import sys

FOLDER = pathlib.Path(__file__).parent


def only(text: str, old: str, new: str) -> str:
    """Replaces what must stand in the page once."""
    if text.count(old) != 1:
        sys.exit(f"make_page.py: this isn't once in the page: {old}")
    return text.replace(old, new)


def main() -> None:
    *modules, page = map(pathlib.Path, sys.argv[1:])
    html = (FOLDER / "index.html").read_text()
    script = re.sub(r"^export ", "", (FOLDER / "dnsnames.mjs").read_text(), flags=re.MULTILINE)
    octets = ", ".join(f'"{base64.b64encode(it.read_bytes()).decode()}"' for it in modules)
    html = only(html, 'import { load, NameFault } from "./dnsnames.mjs";\n', script)
    html = only(html, 'const MODULES = ["dnsnames_c.wasm", "dnsnames_c32.wasm"];', f"const MODULES = [{octets}];")
    begin = html.index("async function moduleOctets(module) {")
    end = html.index("</script>", begin)
    html = html[:begin] + """function moduleOctets(module) {
    return Uint8Array.from(atob(module), (letter) => letter.charCodeAt(0));
}
""" + html[end:]
    page.write_text(html)


main()
