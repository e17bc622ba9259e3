"""Tests of `make install`: into an empty folder, run from there by another user, and taken away
again."""

import gzip
import importlib.util
import os
import pwd
import re
import shutil
import subprocess
import sys
import tempfile
import unittest
from glob import glob

import support
from support import ToolCase
from test_manual import EXAMPLE

import manpage
from program import find_library
from x25tools.command import COMMANDS

PREFIX = "/usr/local"
SCRIPTS = (
    "x25dump",
    "x25report",
    "pcap2x25",
    "x25pcap",
    "x25bridge",
    "x25chart",
    "x25pad",
    "x25tools",
)
# Who runs what was installed, where the tests run as root and so may be another user.
OTHER = {
    "user": pwd.getpwnam("nobody").pw_uid,
    "group": pwd.getpwnam("nobody").pw_gid,
    "extra_groups": [],
} if os.geteuid() == 0 else {}


def make(*words):
    """What `make` does at the root of the repository."""
    return subprocess.run(
        ["make", "-s", *words],
        cwd=support.ROOT,
        env={**os.environ, "MAKEFLAGS": ""},
        capture_output=True,
        text=True,
        timeout=60,
    )


@support.needs_program
class Installed(ToolCase):
    @classmethod
    def setUpClass(cls):
        """Installs once; each test has a copy."""
        folder = tempfile.TemporaryDirectory()
        cls.addClassCleanup(folder.cleanup)
        cls.installed = folder.name
        words = f"DESTDIR={cls.installed}", f"PREFIX={PREFIX}", f"PROGRAM={support.PROGRAM}"
        cls.done = make("install", *words)

    def setUp(self):
        super().setUp()
        self.assertEqual((self.done.returncode, self.done.stderr), (0, ""))
        subprocess.run(["cp", "-a", f"{self.installed}/.", self.folder], check=True)
        os.chmod(self.folder, 0o755)
        self.there = self.folder + PREFIX
        self.documents = f"{self.there}/share/doc/x25"
        self.words = f"DESTDIR={self.folder}", f"PREFIX={PREFIX}", f"PROGRAM={support.PROGRAM}"

    def run_there(self, command, has_path=True):
        """What a command for bash writes, run by another user among the documents; with the folder
        of the programs on the PATH, or not. The word 'unproved' is left out."""
        places = [f"{self.there}/bin"] * has_path + [
            os.path.dirname(os.path.realpath(sys.executable)), "/usr/bin", "/bin"
        ]
        environment = {"PATH": ":".join(places), "LC_ALL": "C", "TZ": "UTC", "HOME": "/"}
        done = subprocess.run(
            ["bash", "-c", command],
            cwd=self.documents,
            env=environment,
            capture_output=True,
            text=True,
            timeout=60,
            **OTHER,
        )
        return re.sub(
            r"^(x25 [\d.]+) unproved$", r"\1", done.stdout + done.stderr, flags=re.MULTILINE
        )

    def page(self):
        with open(f"{self.there}/share/man/man1/x25.1") as file:
            return file.read()

    def test_each_script_runs(self):
        self.assertRegex(self.run_there("x25 --version"), r"^x25 \d+\.\d+\.\d+\n$")
        for words in COMMANDS:
            self.assertIn(f"usage: x25tools {words} ", self.run_there(f"x25 {words} --help"))
        self.assertIn("x25tools COMMAND", self.run_there("x25 help"))
        self.assertNotIn(
            "x25tools", self.run_there("x25 help decode; x25 decode --help; x25; x25 dance")
        )
        for name in SCRIPTS:
            said = self.run_there(f"{name} --help")
            self.assertIn(f"usage: {name} ", said)
            self.assertNotRegex(
                said, r"\b(x25dump|x25report|pcap2x25|x25pcap|x25pad|bridge|chart)\.py"
            )
        with open(f"{self.documents}/examples/setup.trace", "rb") as file:
            decoded = "".join(f"{line}\n" for line in support.decode(file.read()))
        self.assertEqual(self.run_there("x25dump examples/setup.trace"), decoded)
        # The program that was installed with a script is found without the PATH.
        self.assertEqual(
            self.run_there(f"{self.there}/bin/x25dump examples/setup.trace", has_path=False),
            decoded,
        )

    def test_a_capture_given_to_the_program_is_told(self):
        """As a file and as standard input; a pipe is left as it is."""
        self.file("packed.gz", gzip.compress(b"> 013febdf\n"))
        os.chmod(f"{self.folder}/packed.gz", 0o644)
        for words, said in (
            ("decode examples/line.pcapng", "this is a capture: `x25 dump` shows it"),
            ("judge --wide < examples/line.pcapng", "this is a capture: `x25 dump` shows it"),
            (f"decode {self.folder}/packed.gz", "this is packed by gzip: `x25 dump` reads it"),
        ):
            done = self.run_there(f"x25 {words}")
            self.assertIn(f"x25: {said}", done)
            self.assertIn("? 60\n", done)
        for words in (
            "decode examples/setup.trace",
            "decode < examples/setup.trace",
            "decode --long --wide < examples/setup.trace",
        ):
            self.assertEqual(self.run_there(f"x25 {words}"), "> SABM cmd P=1\n< UA rsp F=1\n")
        self.assertEqual(
            self.run_there("cat examples/setup.trace | x25 decode; x25 decode < /dev/null"),
            "> SABM cmd P=1\n< UA rsp F=1\n",
        )

    def test_each_example_of_the_page_writes_what_stands_below_it(self):
        manual = support.read("docs/MANUAL.md").decode().splitlines()
        examples = EXAMPLE.findall("\n".join([*manpage.installed(manual, PREFIX), ""]))
        self.assertGreater(len(examples), 30)
        for command, output in examples:
            with self.subTest(command):
                command = command.replace(f"{PREFIX}/", f"{self.there}/")
                self.assertEqual(
                    self.run_there(command), re.sub("^    ", "", output, flags=re.MULTILINE)
                )

    def test_the_page_points_to_nothing_that_is_not_there(self):
        text = re.sub(r"\\f[BR]|\\&", "", self.page().replace("\\-", "-"))
        for name in re.findall(rf"{PREFIX}/[\w./]*\w|\bexamples/[\w.]*\w", text):
            self.assertTrue(
                os.path.exists(
                    self.folder + name if name[0] == "/" else f"{self.documents}/{name}"
                ),
                name,
            )
        self.assertEqual(
            re.findall(
                r"\b(?:make [\w-]+|(?:build|docs|tools|share/x25|crates|tests)/\S*)",
                text.replace(f"{PREFIX}/", ""),
            ),
            [],
        )
        self.assertIn(".SH SEE ALSO", text)

    def test_completion_and_pages(self):
        completion = f"{self.there}/share/bash-completion/completions/x25"
        self.assertEqual(
            self.run_there(f"source {completion}; complete -p x25"),
            "complete -o default -F _x25 x25\n",
        )
        for name in SCRIPTS:
            self.assertTrue(os.path.samefile(f"{os.path.dirname(completion)}/{name}", completion))
            page = support.read(f"{self.there}/share/man/man1/{name}.1").decode()
            self.assertIn(f".SH NAME\n{name} \\- ", page)
            self.assertNotRegex(page, r"tools/|\b(x25dump|pcap2x25|x25pcap|bridge|chart)\.py")
            offered = (
                f"source {completion}; COMP_WORDS=({name} --h); COMP_CWORD=1; _x25_script; echo "
                f"${{COMPREPLY[*]}}"
            )
            self.assertIn("--help", self.run_there(offered).split())
        if shutil.which("man"):
            self.assertIn(
                "X.25 in a page".upper(),
                self.run_there(f"man -P cat {self.there}/share/man/man1/x25.1").upper(),
            )

    def test_the_first_page_has_the_commands_that_were_installed(self):
        with open(f"{self.documents}/README.md") as file:
            text = file.read()
        for name in (
            "README", "MANUAL", "BRIDGE", "CAPTURES", "FORMATS", "INTEROP", "BUGS", "JUDGE"
        ):
            self.assertNotRegex(
                support.read(f"{self.documents}/{name}.md").decode(),
                r"\btools/\w+\.py|`bridge\.py|build/x25|make look",
            )
        commands = EXAMPLE.findall(text)
        self.assertGreaterEqual(len(commands), 3)
        for command, output in commands:
            with self.subTest(command):
                self.assertEqual(
                    self.run_there(command), re.sub("^    ", "", output, flags=re.MULTILINE)
                )

    def test_the_commit_of_a_program_that_was_built_here(self):
        self.file("x25", support.read(support.PROGRAM))
        os.chmod(f"{self.folder}/x25", 0o755)
        self.file("commit", b"0123abcd\n")
        make("install", *self.words[:2], f"PROGRAM={self.folder}/x25")
        self.assertEqual(support.read(f"{self.documents}/COMMIT"), b"0123abcd\n")

    @unittest.skipUnless(
        find_library("so") and shutil.which("cc"),
        "the library for C isn't built, or there is no C compiler",
    )
    def test_the_library_for_c(self):
        self.assertEqual(
            make(
                "install", *self.words, f"LIBRARY={os.path.dirname(find_library('so'))}"
            ).returncode,
            0,
        )
        source, program = os.path.join(support.ROOT, "tests", "c", "main.c"), f"{self.folder}/main"
        words = [
            "-I", f"{self.there}/include", source, "-L", f"{self.there}/lib", "-lx25",
            f"-Wl,-rpath,{self.there}/lib", "-o", program,
        ]
        subprocess.run(["cc", *words], check=True)
        told = subprocess.run([program], capture_output=True, timeout=60)
        self.assertEqual(
            (told.returncode, told.stdout), (0, support.read("crates/x25_embed/stdout"))
        )
        with open(f"{self.there}/lib/pkgconfig/x25.pc") as file:
            self.assertIn(f"prefix={PREFIX}\n", file.read())
        self.assertIn("libx25.so", os.readlink(f"{self.there}/lib/libx25.so"))

    def test_uninstall_leaves_nothing(self):
        self.assertEqual(make("uninstall", *self.words).returncode, 0)
        left = [name for _, _, names in os.walk(self.folder) for name in names]
        self.assertEqual(left, [])

    def test_the_archive_for_people_without_the_kit(self):
        self.assertEqual(
            make(
                "dist-binary",
                f"PROGRAM={support.PROGRAM}",
                "LIBRARY=none",
                f"ARCHIVES={self.folder}",
            ).returncode,
            0,
        )
        archive, = glob(f"{self.folder}/x25-*-linux-*.tar.gz")
        subprocess.run(["tar", "-C", self.folder, "-xzf", archive], check=True)
        there = archive.removesuffix(".tar.gz")
        check = support.read(f"{there}/CHECK.txt").decode()
        commands = re.findall("^  (sha256sum .*|bin/x25 vectors)$", check, re.MULTILINE)
        self.assertEqual(len(commands), 2)
        whole, vectors = (
            subprocess.run(
                ["bash", "-c", command], cwd=there, capture_output=True, text=True, timeout=60
            )
            for command in commands
        )
        self.assertEqual((whole.stdout, whole.stderr), ("whole\n", ""))
        self.assertEqual(len(re.findall(r" ok$", vectors.stdout, re.MULTILINE)), 17)
        self.assertIn("17 lines", check)
        said = subprocess.run(
            [support.PROGRAM, "--version"], capture_output=True, text=True, timeout=60
        )
        what = (
            "nothing of it is proved"
            if "unproved" in said.stdout
            else "each of its functions is proved"
        )
        self.assertIn(what, check)
        shown = subprocess.run(
            [f"{there}/bin/x25dump", f"{there}/share/doc/x25/examples/line.pcapng"],
            env={"PATH": os.environ["PATH"]},
            capture_output=True,
            text=True,
            timeout=60,
        )
        self.assertIn("RESET ch=1 cause=5 diag=1", shown.stdout)
        with open(f"{there}/libexec/x25", "ab") as program:
            program.write(b"more")
        self.assertNotEqual(
            subprocess.run(
                ["bash", "-c", commands[0]], cwd=there, capture_output=True, timeout=60
            ).returncode,
            0,
        )

    def test_the_sources_bear_the_version_of_the_program(self):
        said = subprocess.run(
            [support.PROGRAM, "--version"], capture_output=True, text=True, timeout=60
        ).stdout.strip()
        self.assertIn(f"build/{'-'.join(said.split()[:2])}.tar.gz", make("-n", "dist").stdout)


class Version(unittest.TestCase):
    def test_it_is_the_same_everywhere(self):
        version = re.search(
            r'\.version\("(.*)"\)', support.read("crates/x25/src/help.rt").decode()
        )[1]
        projects = (
            (f"bindings/{path}", r'^version = "(.*)"')
            for path in ("rust/Cargo.toml", "python/pyproject.toml")
        )
        places = (
            ("CHANGELOG.md", r"^## (\S+?),?( |$)"),
            ("debian/changelog", r"^x25 \((.*)-1\)"),
            *projects,
        )
        for path, pattern in places:
            with self.subTest(path):
                self.assertEqual(
                    re.search(pattern, support.read(path).decode(), re.MULTILINE)[1], version
                )


class InstalledLibrary(ToolCase):
    """What `make install-lib` installs of a library, without the program; this one is empty."""

    def setUp(self):
        super().setUp()
        os.chmod(self.folder, 0o755)
        for name in "libx25.a", "libx25.so.1", "libx25.so":
            self.file(name, b"")
        self.there = self.folder + PREFIX
        self.words = (
            f"DESTDIR={self.folder}",
            f"PREFIX={PREFIX}",
            f"LIBDIR={PREFIX}/lib64",
            f"LIBRARY={self.folder}",
        )
        self.done = make("install-lib", *self.words)

    def test_what_a_compiler_and_a_linker_look_for(self):
        self.assertEqual((self.done.returncode, self.done.stdout, self.done.stderr), (0, "", ""))
        self.assertEqual(
            support.read(f"{self.there}/include/x25.h"), support.read("include/x25.h")
        )
        self.assertEqual(os.readlink(f"{self.there}/lib64/libx25.so"), "libx25.so.1")
        self.assertTrue(os.path.exists(f"{self.there}/lib64/libx25.a"))
        told = support.read(f"{self.there}/lib64/pkgconfig/x25.pc").decode()
        self.assertIn(f"prefix={PREFIX}\nlibdir={PREFIX}/lib64\n", told)
        crate = f"{self.there}/share/x25/rust"
        self.assertEqual(
            sorted(os.listdir(f"{crate}/src")),
            sorted(os.listdir(f"{support.ROOT}/bindings/rust/src")),
        )
        self.assertTrue(
            os.path.exists(f"{crate}/Cargo.toml") and os.path.exists(f"{crate}/build.rs")
        )

    def test_the_package_of_python_finds_the_library(self):
        place = self.packages()
        command = [sys.executable, "-c", "import x25; print(x25.library_path())"]
        environment = {"PATH": "/usr/bin:/bin", "PYTHONPATH": place, "HOME": "/"}
        done = subprocess.run(
            command, cwd="/", env=environment, capture_output=True, text=True, timeout=60
        )
        self.assertEqual(
            os.path.realpath(done.stdout.strip()),
            os.path.realpath(f"{self.there}/lib64/libx25.so.1"),
            done.stderr,
        )
        self.assertTrue(os.path.exists(f"{place}/x25/py.typed"))

    @unittest.skipUnless(importlib.util.find_spec("pip"), "there is no pip")
    def test_pip_makes_a_wheel_with_the_library_in_it(self):
        command = [
            sys.executable,
            "-m",
            "pip",
            "install",
            "-q",
            "--no-index",
            "--target",
            f"{self.folder}/site",
            ".",
        ]
        environment = {
            **os.environ,
            "X25_LIBRARY": self.folder,
            "PIP_ROOT_USER_ACTION": "ignore",
            "PIP_DISABLE_PIP_VERSION_CHECK": "1",
        }
        done = subprocess.run(
            command,
            cwd=f"{support.ROOT}/bindings/python",
            env=environment,
            capture_output=True,
            text=True,
            timeout=120,
        )
        self.assertEqual((done.returncode, done.stderr), (0, ""))
        self.assertEqual(
            {"__init__.py", "py.typed", "libx25.so"} - set(os.listdir(f"{self.folder}/site/x25")),
            set(),
        )
        environment["X25_LIBRARY"] = f"{self.folder}/none"
        done = subprocess.run(
            command,
            cwd=f"{support.ROOT}/bindings/python",
            env=environment,
            capture_output=True,
            text=True,
            timeout=120,
        )
        self.assertIn("none/libx25.so: make lib leaves it there.", done.stdout + done.stderr)

    def packages(self):
        """The folder in which Python finds the package."""
        found = [
            folder
            for folder, names, _ in os.walk(f"{self.there}/lib")
            if folder.endswith("-packages") and "x25" in names
        ]
        self.assertEqual(len(found), 1)
        return found[0]

    def test_the_packages_of_debian_share_out_what_is_installed(self):
        there, words = (
            f"{self.folder}/tmp",
            ("PREFIX=/usr", "LIBDIR=/usr/lib/some", "PYTHONDIR=/usr/lib/python3/dist-packages"),
        )
        self.assertEqual(
            make("install-lib", f"DESTDIR={there}", f"LIBRARY={self.folder}", *words).returncode, 0
        )
        for word in words[2:]:
            self.assertIn(word, support.read("debian/rules").decode())
        taken = []
        for name in re.findall(
            r"^Package: (\S*x25-\S+|python3-x25)$",
            support.read("debian/control").decode(),
            re.MULTILINE,
        ):
            for pattern in support.read(f"debian/{name}.install").decode().split():
                found = glob(f"{there}/{pattern}")
                self.assertEqual(len(found), 1, pattern)
                inside = [
                    os.path.join(folder, file)
                    for folder, _, files in os.walk(found[0])
                    for file in files
                ]
                taken += (
                    inside if os.path.isdir(found[0]) and not os.path.islink(found[0]) else found
                )
        installed = [
            os.path.join(folder, name)
            for folder, folders, files in os.walk(there)
            for name in files + [one for one in folders if os.path.islink(f"{folder}/{one}")]
        ]
        self.assertEqual(sorted(taken), sorted(installed))

    @unittest.skipUnless(
        shutil.which("dh") and shutil.which("cc"), "there is no debhelper, or no C compiler"
    )
    def test_the_packages_of_debian_are_built(self):
        source = self.file("empty.c", b"int main(void) { return 0; }\n")
        self.file("libx25.a", b"!<arch>\n")
        for words in (
            [source, "-o", f"{self.folder}/x25"],
            [
                "-shared", "-fPIC", source, "-Wl,-soname,libx25.so.1", "-o",
                f"{self.folder}/libx25.so.1",
            ],
        ):
            subprocess.run(["cc", *words], check=True)
        command = [
            "make",
            "deb",
            f"PROGRAM={self.folder}/x25",
            f"LIBRARY={self.folder}",
            f"DEBS={self.folder}/deb",
        ]
        environment = {**os.environ, "MAKEFLAGS": "", "DEB_BUILD_OPTIONS": "nocheck"}
        done = subprocess.run(
            command, cwd=support.ROOT, env=environment, capture_output=True, text=True, timeout=600
        )
        self.assertEqual(done.returncode, 0, done.stdout + done.stderr)
        inside = {}
        for path in glob(f"{self.folder}/deb/*.deb"):
            told = subprocess.run(
                ["dpkg-deb", "-c", path], capture_output=True, text=True, check=True
            ).stdout
            inside[os.path.basename(path).partition("_")[0]] = [
                line.split()[5] for line in told.splitlines()
            ]
        places = {
            "x25": "./usr/bin/x25dump",
            "libx25-dev": "./usr/include/x25.h",
            "python3-x25": "./usr/lib/python3/dist-packages/x25",
        }
        for name, place in places.items():
            self.assertIn(place, inside[name])
        self.assertTrue(
            any(
                re.fullmatch(r"\./usr/lib/[^/]+/libx25\.so\.1", place)
                for place in inside["libx25-1"]
            )
        )

    def test_it_says_what_is_left_to_do_on_the_system_itself(self):
        done = make("install-lib", f"PREFIX={self.folder}/here", f"LIBRARY={self.folder}")
        self.assertEqual(
            done.stdout,
            "Now run ldconfig, as root: it lets programs find "
            f"{self.folder}/here/lib/libx25.so.1.\n",
        )
        done = make("install-lib", "LIBRARY=none", "DESTDIR=/nowhere")
        self.assertIn("There is no none/libx25.so: make lib leaves it there.", done.stderr)

    def test_uninstall_leaves_nothing(self):
        self.assertEqual(make("uninstall", *self.words).returncode, 0)
        self.assertEqual([name for _, _, names in os.walk(self.there) for name in names], [])


class NotBuilt(unittest.TestCase):
    def test_it_says_what_is_missing(self):
        done = make("install", "PROGRAM=none", "DESTDIR=/nowhere")
        self.assertEqual((done.returncode, done.stdout), (2, ""))
        self.assertIn("There is no none: make x25 leaves it there.", done.stderr)


if __name__ == "__main__":
    unittest.main()
