"""Tests of the library for C: its header beside the functions that the crate exports, and the
programs of tests/c over it."""

import contextlib
import io
import re
import shutil
import subprocess
import unittest

import check_c
import support
from program import find_library
from x25tools import x25names

LIBRARY, SHARED = find_library("a"), find_library("so")
# What plain x86-64 doesn't have: SSE3, SSSE3, SSE4, POPCNT and all of AVX.
LATER = re.compile(
    r"v[a-z]+|popcnt|crc32|lddqu|mov(?:d|sh|sl)dup|(?:hadd|hsub|addsub)p[sd]|p(?:shufb|h(?:add|"
    r"sub)s?[wd]|maddubsw|mulhrsw|sign[bwd]|abs[bwd]|alignr"
    r"|test|mul(?:ld|dq)|m(?:ax|in)(?:sb|uw|ud|sd)|(?:ins|ext)r[bdq]|mov[sz]x\w+|ackusdw|"
    r"cmp(?:eqq|gtq|[ei]str[im])|blend(?:w|vb))|blendv?p[sd]|round[ps][sd]"
    r"|dpp[sd]|mpsadbw|phminposuw|insertps|extractps|movntdqa"
)
# The sources of the exports, in the order of the header.
SOURCES = ("lib", "calls", "timing", "telling", "standing", "refusal_text")
NUMBERS = {
    "u8": "uint8_t", "u16": "uint16_t", "u32": "uint32_t", "u64": "uint64_t", "usize": "size_t",
    "bool": "bool",
}
STRUCTURES = {
    "Settings": "x25_settings", "StretchName": "x25_stretch_name", "Sizes": "x25_sizes",
    "Given": "x25_given", "Event": "x25_event", "Times": "x25_times",
}
# The parameters that are text in C, and not octets.
TEXTS = ("called", "calling", "text")
EXPORT = re.compile(r'pub extern "C" fn (\w+)\(([^)]*)\)(?: -> (\w+))?([^{]*\{[^}]*\})?')
# The clause of one that leaves what is held as it was: its station is const in C.
KEPT = "ensures kept { slot.new.handle.held ≡ slot.old.handle.held }"
PROTOTYPE = re.compile(r"^(?:void|bool|\w+_t) x25_\w+\([^)]*\);", re.MULTILINE)


def parameter(text):
    """A parameter of an export as C has it; None for the allocator, which takes no octets."""
    name, _, kind = text.partition(": ")
    if kind == "Global":
        return None
    if kind == "&mut Slot":
        return "x25_station *station"
    if kind == "&[usize]":
        return f"const size_t *{name}, size_t {name}_count"
    if kind == "&mut [Event]":
        return f"x25_event *{name}, size_t most"
    octet = "char" if name in TEXTS else "uint8_t"
    if kind == "&[u8]":
        return f"const {octet} *{name}, size_t {name}_count"
    if kind == "&mut [u8]":
        return f"{octet} *{name}, size_t size"
    if kind.startswith("&mut "):
        return f"{c_type(kind[5:])} *{name}"
    return f"{c_type(kind)} {name}"


def c_type(name):
    """A type as C has it."""
    name = name.partition("<")[0]
    return STRUCTURES.get(name) or NUMBERS[name]


def fields_of(text):
    """The fields of a structure of the crate, as C has them."""
    found = re.findall(r"^    pub (\w+): (.+),$", text, re.MULTILINE)
    pairs = (
        (
            (f"const uint8_t *{name}", f"size_t {name}_count")
            if kind == "&'a [u8]"
            else (f"{c_type(kind)} {name}",)
        )
        for name, kind in found
    )
    return [field for pair in pairs for field in pair]


def exported():
    """The functions that the crate exports, in order, as C declares them."""
    found = []
    for name, parameters, result, clause in EXPORT.findall(
        "".join(support.read(f"crates/x25_c/src/{name}.rt").decode() for name in SOURCES)
    ):
        texts = [
            parameter(" ".join(text.split())) for text in parameters.split(",") if text.strip()
        ]
        if KEPT in clause:
            texts = [
                "const x25_station *station" if text == "x25_station *station" else text
                for text in texts
            ]
        found.append(
            f"{NUMBERS.get(result, 'void')} "
            f"{name}({', '.join(text for text in texts if text) or 'void'});"
        )
    return found


def numbers_of(text):
    """The numbers of an enumeration of the header, by their names."""
    return {
        name: int(number)
        for name, number in re.findall(r"^    X25_(\w+) = (\d+)", text, re.MULTILINE)
    }


class Header(unittest.TestCase):
    HEADER = support.read("include/x25.h").decode()

    def test_it_declares_what_the_crate_exports_in_its_order(self):
        found = [" ".join(text.split()) for text in PROTOTYPE.findall(self.HEADER)]
        self.assertEqual(found, exported())
        self.assertIn(
            "uint32_t x25_new(x25_station *station, uint8_t end, x25_settings settings);", found
        )

    def test_its_structures_are_those_of_the_crate(self):
        handle, slot = (
            support.read(f"crates/x25_c/src/{name}.rt").decode() for name in ("handle", "slot")
        )
        self.assertRegex(
            handle,
            r"pub struct Handle \{\n    at: \*mut u8,\n    alloc: Global,\n    pub ghost held:",
        )
        self.assertRegex(
            slot,
            r"pub struct Slot \{\n    pub\(crate\) handle: Handle,\n    pub\(crate\) is_open: "
            r"bool,\n    pub\(crate\) ghost",
        )
        self.assertIn(
            "typedef struct {\n    void *at;\n    bool is_open;\n} x25_station;", self.HEADER
        )

        for name, called in STRUCTURES.items():
            with self.subTest(called):
                source = re.sub("([a-z])([A-Z])", r"\1_\2", name).lower()
                text = support.read(f"crates/x25_c/src/{source}.rt").decode()
                fields = re.search(
                    rf"#\[repr\(C\)\]\n.*\npub struct {name}(?:<'a>)? \{{\n([^}}]*)\}}", text
                )[1]
                declared = re.search(rf"typedef struct \{{\n([^}}]*)\}} {called};", self.HEADER)[1]
                self.assertEqual(
                    re.findall(r"^    (\w.*?);", declared, re.MULTILINE), fields_of(fields)
                )

    def test_its_kinds_of_events_are_those_of_the_crate(self):
        event = support.read("crates/x25_c/src/event.rt").decode()
        kinds = re.findall(r"^(?:pub\(crate\) )?const (\w+): u16 = (\d+);", event, re.MULTILINE)
        self.assertEqual(
            re.findall(r"^    X25_EVENT_(\w+) = (\d+)", self.HEADER, re.MULTILINE), kinds
        )
        reasons = re.findall(r"^        Reason::(\w+) => (\d),", event, re.MULTILINE)
        declared = re.findall(r"^    X25_DOWN_(\w+) = (\d)", self.HEADER, re.MULTILINE)
        self.assertEqual(
            [(name.replace("_", "").lower(), number) for name, number in declared],
            [(name.lower(), number) for name, number in reasons],
        )

    def test_its_version_is_that_of_the_library(self):
        version = support.read("bindings/rust/Cargo.toml").decode()
        first, second, third = map(
            int, re.search(r'^version = "(\d+)\.(\d+)\.(\d+)"', version, re.MULTILINE).groups()
        )
        number = 10_000 * first + 100 * second + third
        self.assertIn(f"/* {first}.{second}.{third}, as 10,000 times", self.HEADER)
        self.assertIn(f"#define X25_VERSION {number}\n", self.HEADER)
        self.assertIn(
            f"const VERSION: u32 = {number};\n", support.read("crates/x25_c/src/lib.rt").decode()
        )

    def test_its_numbers_and_their_texts_are_those_of_the_scripts(self):
        texts = re.findall(
            r"^        (\d+) => b\"(.*)\",$",
            support.read("crates/x25_c/src/refusal_text.rt").decode(),
            re.MULTILINE,
        )
        others = {
            14: "a setting is out of its range",
            16: "no station is held",
            17: "a station is held where one was to be made",
            60: "no command",
        }
        for number, text in texts:
            self.assertEqual((x25names.REFUSALS | others)[int(number)], text)
        numbers = numbers_of(self.HEADER.partition("/* Why a call is refused.")[2])
        self.assertEqual(sorted(numbers.values()), [int(number) for number, _ in texts])
        source = support.read("crates/x25_c/src/numbers.rt").decode()
        for name, number in re.findall(
            r"^pub\(crate\) const (\w+): u32 = (\d+);", source, re.MULTILINE
        ):
            self.assertEqual(numbers[name], int(number))


@unittest.skipUnless(SHARED, "the library for C isn't built")
@unittest.skipUnless(shutil.which("objdump"), "there is no objdump")
class Code(unittest.TestCase):
    def test_it_runs_on_each_x86_64(self):
        lines = subprocess.run(
            ["objdump", "-d", "--no-show-raw-insn", SHARED],
            capture_output=True,
            text=True,
            check=True,
        ).stdout.splitlines()
        names = {
            fields[1].split()[0]
            for fields in (line.split("\t") for line in lines)
            if len(fields) > 1
        }
        self.assertIn("call", names)
        self.assertEqual([name for name in sorted(names) if LATER.fullmatch(name)], [])

    def test_the_name_by_which_programs_link_it(self):
        told = subprocess.run(
            ["objdump", "-p", SHARED], capture_output=True, text=True, check=True
        ).stdout
        self.assertRegex(told, r"SONAME +libx25\.so\.1\n")


@unittest.skipUnless(shutil.which("cc"), "there is no C compiler")
@unittest.skipUnless(LIBRARY, "the library for C isn't built")
class Programs(unittest.TestCase):
    def test_the_programs_over_the_library(self):
        said = io.StringIO()
        with contextlib.redirect_stdout(said):
            wrong = check_c.run(LIBRARY)
        self.assertEqual(wrong, 0, said.getvalue())
        self.assertIn("main as it is: as crates/x25_embed\n", said.getvalue())
        self.assertRegex(
            said.getvalue(),
            r"refused as it is: \d{3,} allocations refused in turn, \d{3,} calls made again\n",
        )


if __name__ == "__main__":
    unittest.main()
