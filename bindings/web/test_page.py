#!/usr/bin/env python3
"""Tests the page in a real browser: Debian's chromium, without a window, by chromium-driver and python3-selenium.

    test_page.py PAGE [--screenshot FILE]

PAGE is what make_page.py made. What is wanted is RFC 1035's.
"""

import pathlib
import sys
import unittest

from selenium import webdriver
from selenium.webdriver.chrome.service import Service
from selenium.webdriver.common.by import By
from selenium.webdriver.common.keys import Keys
from selenium.webdriver.support.ui import Select, WebDriverWait

PAGE = SCREENSHOT = None
SHORT, TYPE = "Refused: unexpected end of input", "Refused: invalid label type"
POINTERS, LONG = "Refused: too many compression pointers", "Refused: long domain name"
SAMPLES = {
    "A response: the alias of www.example.com": ("host.example.com.", ""),
    "The message of RFC 1035, 4.1.4": ("FOO.F.ISI.ARPA.", ""),
    "A name of 255 octets": ("a." * 127, ""),
    "Hostile: one label more, 257 octets": (LONG, "RFC 1035, 2.3.4 and 3.1"),
    "Hostile: a pointer to itself": (POINTERS, "RFC 1035, 4.1.4"),
    "Hostile: a ring of two pointers": (POINTERS, "RFC 1035, 4.1.4"),
    "Hostile: a label and a pointer back to it": (LONG, "RFC 1035, 2.3.4 and 3.1"),
    "Hostile: a pointer ahead": (POINTERS, "RFC 1035, 4.1.4"),
    "Hostile: a label type that isn't in use": (TYPE, "RFC 1035, 4.1.4; RFC 6891, 5"),
    "Hostile: the message is cut in a label": (SHORT, "RFC 1035, 3.1 and 4.1.4"),
    "Hostile: half a pointer": (SHORT, "RFC 1035, 3.1 and 4.1.4"),
    "65,535 octets, the name at their end": ("b.", ""),
}


class Page(unittest.TestCase):
    @classmethod
    def setUpClass(cls):
        options = webdriver.ChromeOptions()
        for option in ("--headless=new", "--no-sandbox", "--disable-gpu", "--window-size=1080,980"):
            options.add_argument(option)
        cls.driver = webdriver.Chrome(service=Service("/usr/bin/chromedriver"), options=options)
        cls.addClassCleanup(cls.driver.quit)

    def setUp(self):
        self.driver.get(pathlib.Path(PAGE).resolve().as_uri())
        WebDriverWait(self.driver, 20).until(
            lambda driver: driver.find_element(By.TAG_NAME, "body").get_attribute("data-ready") == "yes"
        )

    def find(self, name):
        return self.driver.find_element(By.ID, name)

    def told(self):
        """The answer, and the note below it."""
        note = self.find("answer").find_element(By.TAG_NAME, "small").text
        return self.find("answer").text.split("\n")[0], note

    def type_into(self, name, text):
        self.driver.execute_script(
            "const e = arguments[0]; e.value = arguments[1]; e.dispatchEvent(new Event('input'))", self.find(name), text
        )

    def js(self, script):
        return self.driver.execute_script(f"const dns = globalThis.dnsnames; {script}")

    def test_every_sample(self):
        options = [option.text for option in Select(self.find("sample")).options]
        self.assertEqual(options, list(SAMPLES))
        for title, (text, note) in SAMPLES.items():
            with self.subTest(title=title):
                Select(self.find("sample")).select_by_visible_text(title)
                told = self.told()
                self.assertEqual(told[0].replace("\n", ""), text)
                self.assertIn(note, told[1])
                self.assertNotIn("differs", told[1])
                self.assertEqual("refused" in self.find("answer").get_attribute("class"), text.startswith("Refused"))
                faults = self.driver.find_elements(By.CSS_SELECTOR, ".fault[data-place]")
                self.assertEqual(len(faults), text.startswith("Refused"))

    def test_steps_and_colours(self):
        steps = [item.text for item in self.find("steps").find_elements(By.TAG_NAME, "li")]
        self.assertEqual(steps, [
            "at 45: a label of 4 octets: host", "at 50: a pointer to 16", "at 16: a label of 7 octets: example",
            "at 24: a label of 3 octets: com", "at 28: the root label: the name ends",
        ])
        kinds = self.driver.execute_script(
            "return [...document.querySelectorAll('[data-place]')].map((box) => box.classList[0])"
        )
        self.assertEqual(set(kinds[:12]), {"header"})
        self.assertEqual([kinds[i] for i in (12, 16, 17, 28, 29, 45, 46, 50, 51, 52, 54, 64)], [
            "name", "length", "letter", "root", "fields", "length", "letter", "pointer", "pointer", "name", "fields",
            "data",
        ])

    def test_by_keyboard_alone(self):
        self.find("limit").click()
        active = lambda: self.driver.switch_to.active_element
        active().send_keys(Keys.TAB)
        self.assertEqual(active().get_attribute("data-place"), "45")
        for key, place in ((Keys.ARROW_RIGHT, "46"), (Keys.ARROW_UP, "30"), (Keys.ARROW_LEFT, "29"), (Keys.HOME, "16"),
                           (Keys.END, "31"), (Keys.ARROW_UP, "15"), (Keys.ARROW_RIGHT, "16")):
            active().send_keys(key)
            self.assertEqual(active().get_attribute("data-place"), place)
        active().send_keys(Keys.ENTER)
        self.assertEqual(self.told()[0], "example.com.")
        self.assertEqual(self.find("offset").get_attribute("value"), "16")
        self.assertEqual(active().get_attribute("data-place"), "16")

    def test_for_screen_readers(self):
        answer = self.find("answer")
        self.assertEqual((answer.get_attribute("role"), answer.get_attribute("aria-live")), ("status", "polite"))
        self.assertEqual(self.find("entries").accessible_name, "Its questions and records")
        for name in ("sample", "digits", "offset", "limit"):
            self.assertTrue(self.driver.find_element(By.CSS_SELECTOR, f"label[for={name}]").text)
            self.assertTrue(self.find(name).accessible_name)
        for place, text in ((45, "offset 45, 04, length of a label, the name begins here"), (0, "offset 0, 12, header")):
            box = self.driver.find_element(By.CSS_SELECTOR, f"[data-place='{place}']")
            self.assertEqual((box.aria_role, box.accessible_name), ("button", text))
        self.assertEqual(self.driver.find_element(By.TAG_NAME, "html").get_attribute("lang"), "en")

    def test_offset_and_limit(self):
        self.type_into("offset", "12")
        self.assertEqual(self.told()[0], "www.example.com.")
        self.type_into("offset", "45")
        self.type_into("limit", "0")
        self.assertEqual(self.told()[0], POINTERS)
        self.type_into("offset", "65535")
        self.assertEqual(self.told()[0], SHORT)

    def test_what_is_pasted(self):
        self.type_into("digits", "0x03 77:77:77, 00")
        self.type_into("offset", "0")
        self.assertEqual(self.told()[0], "www.")
        for wrong in ("0", "0g", "<b>"):
            self.type_into("digits", wrong)
            self.assertEqual(self.find("digits").get_attribute("aria-invalid"), "true")
        self.type_into("digits", "053c623e3c2f00")
        self.assertEqual(self.told()[0], "<b></.")
        self.type_into("digits", "")
        self.assertEqual(self.told()[0], SHORT)

    def lines(self):
        return self.find("entries").get_property("value").split("\n")

    def test_entries_are_read(self):
        self.assertEqual(self.lines(), [
            "question www.example.com. IN A", "answer www.example.com. 3600 IN CNAME host.example.com.",
            "answer host.example.com. 60 IN A \\# 4 c0000201",
        ])
        self.type_into("digits", "0007 8180 0000 0001 0000 0000 00 0006 0001 0000003c 0019 0161 00 c017"
                       + "0000000100000002000000030000000400000005")
        self.assertEqual(self.lines(), [
            "answer . 60 IN SOA \\# 26 016100016100" + "0000000100000002000000030000000400000005",
        ])
        self.type_into("digits", "0007 8180 0001 0001 0000 0000 00 0001 0001 c0")
        self.assertEqual(self.lines(), ["question . IN A"])
        self.assertEqual(self.find("entries-note").text, "after these: unexpected end of input")
        self.assertEqual(self.find("text").text.split("\n")[2:], [
            ";; QUESTION SECTION", ". IN A", ";; ANSWER SECTION", "unexpected end of input",
        ])

    def test_a_long_text(self):
        """Names that pointers lead to are written out, so a text can have millions of octets."""
        name, questions = "0161" * 127 + "00", 10878
        self.type_into("digits", f"00078180{questions:04x}000000000000{name}00010001" + "c00c00010001" * (questions - 1))
        text = self.driver.execute_script("return document.getElementById('text').textContent")
        self.assertEqual(text.count("\n" + "a." * 127 + " IN A"), questions)

    def test_a_changed_entry_is_built(self):
        self.type_into("entries", "question www.example.com. IN A\nanswer www.example.com. 60 IN A \\# 4 c0000201")
        # The identifier and the flags stay; the owner is a pointer to the question's name (RFC 1035, 4.1.4).
        wanted = ("1234 8180 0001 0001 0000 0000 03777777 076578616d706c65 03636f6d 00 0001 0001"
                  " c00c 0001 0001 0000003c 0004 c0000201").replace(" ", "")
        self.assertEqual(self.find("digits").get_property("value").replace(" ", ""), wanted)
        self.assertEqual(self.told()[0], "www.example.com.")
        self.assertIn("\nwww.example.com. 60 IN A 192.0.2.1\n", self.find("text").text)
        self.type_into("offset", str(wanted.index("c00c") // 2))
        steps = [item.text for item in self.find("steps").find_elements(By.TAG_NAME, "li")]
        self.assertEqual(steps[0], "at 33: a pointer to 12")

    def test_an_entry_that_says_nothing(self):
        before = self.find("digits").get_property("value")
        for line, why in (
            ("question a..b IN A", "empty label"), ("answer a. 60 IN A 192.0.2.1", "data are a name, or \\# and octets"),
            ("answer a. 60 IN A \\# 4 c00002", "data have another number of octets"), ("question a. IN LOST",
             "no name of a type, a class or a code"), ("answer a. x IN NS b.", "a time to live is a number of 32 bits"),
            ("answer a. 1 IN NS b.\nquestion a. IN A", "a later section was begun"), ("lost a. 1 IN NS b.", "no such section"),
        ):
            with self.subTest(line=line):
                self.type_into("entries", line)
                number = line.count("\n") + 1
                self.assertEqual(self.find("entries-note").text, f"Nothing is built: line {number}: {why}")
                self.assertEqual(self.find("entries").get_attribute("aria-invalid"), "true")
                self.assertEqual(self.find("digits").get_property("value"), before)

    def test_no_network(self):
        self.assertEqual(self.driver.execute_script("return performance.getEntriesByType('resource').length"), 0)

    def test_the_module(self):
        self.assertEqual(self.js("""
            const text = (name) => dns.toText(name), from = (name) => dns.fromText(name);
            const faultOf = (call) => { try { call(); return ""; } catch (fault) { return fault.fault; } };
            const composer = dns.composer(23);
            composer.append(from("example.com"));
            composer.append(from("www.EXAMPLE.com"));
            const sorted = ["z.example", "a.example", "example", "Z.a.example"].map(from).sort((l, r) => dns.compare(l, r));
            const message = Uint8Array.of(0, 7, 0x81, 0x80, 0, 1, 0, 1, 0, 0, 0, 0, 1, 97, 0, 0, 1, 0, 1,
                0xc0, 12, 0, 5, 0, 1, 0, 0, 0, 60, 0, 2, 0xc0, 12);
            const entries = [...dns.entries(message)];
            return [
                sorted.map(text).join(" "), dns.equal(from("WWW"), from("www")), dns.key(from("WWW")) === dns.key(from("www")),
                text(dns.parent(from("www.com"))), text(dns.lower(from("WWW"))), dns.endsWith(from("a.b"), from("B")),
                dns.endsWith(from("ab"), from("b")), dns.toText(from("a\\\\.b"), { finalDot: false }),
                dns.labels(from("a.b")).length, dns.skipName(Uint8Array.of(0xc0, 0), 0),
                String(composer.octets().slice(13)), faultOf(() => composer.append(from("org"))), composer.octets().length,
                entries.map((entry) => `${entry.section} ${entry.type} ${entry.end}`).join(" "), entries[1].ttl,
                dns.header(message).id, String(entries[1].data),
                ["a..b", "", "\\\\256", "\\u00fc", "\\ud800", "\\\\[x", "a".repeat(64), "a.".repeat(128)]
                    .map((name) => faultOf(() => from(name))).join(" "),
                [[], [3, 119], [1, 97], [0, 0], [0xc0, 0], [0x40]]
                    .map((name) => faultOf(() => dns.checkName(Uint8Array.from(name)))).join(" "),
                faultOf(() => dns.checkRelativeName(Uint8Array.of(0))), faultOf(() => dns.parent(from("."))),
                dns.readName(new Uint8Array(200000), 199999).end, dns.nameInData(message, entries[1]).text,
                faultOf(() => dns.nameInData(message, entries[1], 1)),
                faultOf(() => dns.nameInData(message, { ...entries[1], data: entries[1].data.slice(1) })),
            ].map(String);
        """), [
            "example. a.example. Z.a.example. z.example.", "true", "true", "com.", "www.", "true", "false",
            "a\\.b", "3", "2", "3,119,119,119,192,0", "NoRoom", "19", "question 1 19 answer 5 33", "60", "7", "192,12",
            "EmptyLabel ShortInput BadEscape BadSymbol BadSymbol BinaryLabel LongLabel LongName",
            "ShortInput ShortInput RelativeName TrailingData CompressedName BadLabelType", "AbsoluteName", "NoLabel",
            "200000", "a.", "NoField", "ShortInput",
        ])

    def test_screenshot(self):
        if SCREENSHOT is None:
            self.skipTest("none is asked for")
        Select(self.find("sample")).select_by_index(0)
        self.driver.save_screenshot(SCREENSHOT)


if __name__ == "__main__":
    if "--screenshot" in sys.argv:
        at = sys.argv.index("--screenshot")
        SCREENSHOT = sys.argv[at + 1]
        del sys.argv[at:at + 2]
    PAGE = sys.argv.pop(1)
    unittest.main()
