#!/usr/bin/env python3
"""Checks the bindings with the C library, as the proved archive and as cargo builds it of bindings/c.

    python3 bindings/check.py            both, if their tools are there; proves crates/vers_c first if need be
    python3 bindings/check.py ARCHIVE    only this archive
    python3 bindings/check.py --cargo    only the library of cargo
    python3 bindings/check.py --quick    without clang, valgrind and pip
    python3 bindings/check.py --write    writes the codes anew, and checks nothing
    python3 bindings/check.py --text     only the codes, and what vers.h says of the exports
    python3 bindings/check.py --self-test    plants faults in these texts, and runs commands that fail

- The codes of statuses, queries and changes in vers.h and in the Python package are those of
  crates/vers_c, one after another.
- vers.h says of each export which handles differ, and which arrays it reads and writes.
- C and C++ are compiled without a warning, C++ as C++17 and C++20, also for a sanitizer; their tests pass, also under
  memcheck and helgrind. What C++ refuses doesn't compile.
- The packages for pkg-config and CMake lead to headers and libraries, in a prefix and, by CMake, in the folder in which
  cargo builds. CMake finds no other version, and no library that is not there.
- Python's tests pass, with each Python that is there, also of parts on processes and on Dask's workers; its examples
  too, and an installed wheel works.
- The package for Python says in one line what it needs if there is no library, and its source distribution makes a
  wheel.
- Each program of each page README.md was run, and printed what the page says.

It names what it leaves out because a tool is missing. The last line is "N passed, M failed".
"""
import contextlib
import glob
import io
import itertools
import os
import re
import shutil
import subprocess
import sys
import tempfile
import threading
from concurrent.futures import ThreadPoolExecutor

HERE = os.path.dirname(os.path.abspath(__file__))
TOP = os.path.dirname(HERE)
sys.path.append(os.path.join(TOP, "tools"))
from sources import has_cargo, missed_plants, report_tests

C, CPP, PY = (os.path.join(HERE, it) for it in ("c", "cpp", "python"))
ARCHIVE = os.path.join(TOP, "crates", "vers_c", "out", "libvers_c.a")
STRICT = ["-O1", "-g", "-pedantic", "-Wall", "-Wextra", "-Wconversion", "-Werror", f"-I{C}"]
# The tools that a quick check leaves out.
SLOW = {"clang", "clang++", "valgrind", "pip"}
# by which tests refuse the library memory
REFUSING = "-Wl,--wrap=malloc,--wrap=realloc"
# a table of codes, the enum of vers.h with them, what its names begin with, and a row of that table
TABLES = (
    ("vers_c/src/status.rt", "vers_status", "", r"()pub const (\w+): u32 = \d+;"),
    ("catalogue/src/query.rt", "vers_query", "", r"(?m)^    Query::(?:(\w+)\(\w+::)?(\w+)\)?,$"),
    ("catalogue/src/structure.rt", "vers_kind", "KIND_", r"(?m)^    ()Kind::(\w+),$"),
    ("vers_c/src/change.rt", "vers_change_code", "", r"()Change::(\w+)(?=[,\]])"),
    ("catalogue/src/documents.rt", "vers_joint", "", r"()Joint::(\w+)(?=[,\]])"),
)
# the examples in Python that compare their answers with plain Python, and need nothing else
GALLERY = ("search_engine", "genome_reads", "sliding_quantiles", "json_tree", "dictionary_column", "ip_ranges")
FENCE = re.compile(r"(?ms)^```(\w+)\n(.*?)^```\n(?:(?:[^`\n]*\n)*?^```text\n(.*?)^```\n)?")


class Checks:
    """What passed, what failed, and what was left out."""

    def __init__(self, is_quick):
        self.passed, self.failed, self.left_out, self.library, self.is_quick = 0, 0, [], "", is_quick
        self.counting = threading.Lock()
        self.folder = tempfile.mkdtemp(prefix="vers")

    def run(self, what, command, wanted=None, **more):
        """Runs a command, which has to end with status 0 and to print what is wanted."""
        pipes = {"stdin": subprocess.DEVNULL, "stdout": subprocess.PIPE, "stderr": subprocess.STDOUT}
        done = subprocess.run(command, text=True, **pipes, **more)
        is_right = done.returncode == 0 and wanted in (None, done.stdout)
        asked = f"\nwanted:\n{wanted}" if wanted is not None else ""
        self.note(is_right, f"{what}: {' '.join(command)}\n{done.stdout[-3000:]}{asked}")
        return is_right

    def note(self, is_right, said):
        """Counts a check, and prints a line if it fails."""
        with self.counting:
            self.passed += is_right
            self.failed += not is_right
        if not is_right:
            print(f"failed: {self.library}{said}")

    def has(self, tool, what):
        """Whether a tool is there, and a quick check uses it; what is left out is noted."""
        is_left_out = self.is_quick and tool in SLOW
        if is_left_out or not shutil.which(tool):
            self.left_out.append(f"{what} ({'quick' if is_left_out else 'no ' + tool})")
        return not is_left_out and shutil.which(tool)

    def path(self, name):
        """A path in the scratch folder."""
        return os.path.join(self.folder, name)


class Proved:
    """The library that is proved: an archive, with that of the heap's calls beside it."""

    def __init__(self, archive):
        self.name, self.named, self.archive = "proved library", archive, archive

    def link(self):
        """Returns what a program is linked with."""
        return [self.archive, heap_archive(self.archive)]

    def built(self, checks):
        """Whether the archive is there, or was proved and built."""
        crate = os.path.join(TOP, "crates", "vers_c")
        if os.path.exists(self.archive):
            return True
        if not os.path.exists(crate):
            checks.left_out.append("the proved library (no archive, and no crates/vers_c)")
            return False
        build = [sys.executable, os.path.join(TOP, "tools", "proofs.py"), "vers_c"]
        return checks.has("rt", "the proved library") and checks.run("the archive", build)


class Cargo:
    """The library that cargo builds of bindings/c."""

    def __init__(self, target):
        self.name, self.named, self.target = "library of cargo", "cargo", target
        self.archive = os.path.join(target, "release", "libvers.a")

    def link(self):
        """Returns what a program is linked with."""
        return [self.archive]

    def built(self, checks):
        """Whether the library was built, and passes its own tests."""
        if not has_cargo():
            checks.left_out.append("the library of cargo (no cargo 1.88 or newer)")
            return False
        environment = {**os.environ, "CARGO_TARGET_DIR": self.target}
        tests = ["cargo", "test", "--offline", "--quiet"]
        build = ["cargo", "build", "--release", "--offline", "--quiet"]
        where = {"cwd": C, "env": environment}
        return checks.run("its own tests", tests, **where) and checks.run("build", build, **where)


def heap_archive(archive):
    """The archive of the C heap's calls: beside the library's, or in the toolchain."""
    places = [os.path.dirname(archive)]
    if shutil.which("rt"):
        places.append(os.path.join(os.path.dirname(os.path.dirname(os.path.realpath(shutil.which("rt")))), "c"))
    return next(it for it in (os.path.join(place, "liblibc_c.a") for place in places) if os.path.exists(it))


def read(path):
    """The text of a file."""
    with open(path, encoding="utf-8") as file:
        return file.read()


def word(name):
    """A name as vers.h writes it."""
    return re.sub(r"(?<=[a-z0-9])(?=[A-Z])", "_", name).upper()


def code_tables(source):
    """The names of the codes in the crate's tables, by the enums of vers.h. One that stands twice, or ends a level, has
    its group before it."""
    tables = {}
    for file, enum, start, row in TABLES:
        text = read(os.path.join(source, file))
        body = text[text.rfind("= [") if "= [" in text else 0:]
        rows = [[word(it) for it in found] for found in re.findall(row, body)]
        names = [name for _, name in rows]
        tables[enum] = [start + (f"{group}_{name}" if group == "LEVEL" or name in names[:k] else name)
                        for k, (group, name) in enumerate(rows)]
    return tables


def written_header(text, tables):
    """The header with the codes of the tables. A code whose comment it hasn't yet gets an empty one, and a kind that of
    the type of its name."""
    for enum, names in tables.items():
        head, body, tail = re.split(rf"(?s)(?<=enum {enum} {{\n)(.*?)(?=^}};)", text, maxsplit=1, flags=re.M)
        about = {it: f"/**< A vers_{it[5:].lower()}. */" for it in names if it.startswith("KIND_")}
        about.update(re.findall(r"VERS_(\w+) = \d+,? +(/\*\*<.*\*/)", body))
        rows = [f"    VERS_{name} = {k}{',' if k < len(names) - 1 else ''}" for k, name in enumerate(names)]
        width = max(map(len, rows))
        text = head + "".join(f"{row:<{width}} {about.get(name, '/**< . */')}\n"
                              for row, name in zip(rows, names)) + tail
    return text


def written_codes(tables):
    """The Python module of the codes."""
    text = '"""The codes of statuses, queries and changes, as crates/vers_c has them. Written by bindings/check.py --write."""\n'
    for names in tables.values():
        text += "\n" + "".join(f"{name} = {k}\n" for k, name in enumerate(names))
    return text


def check_codes(checks, write):
    """Compares the codes with the crate's tables, or writes them."""
    source = os.path.join(TOP, "crates")
    if not os.path.exists(source):
        checks.left_out.append("codes (no crates)")
        return
    tables = code_tables(source)
    files = {os.path.join(C, "vers.h"): lambda text: written_header(text, tables),
             os.path.join(PY, "vers", "_codes.py"): lambda _: written_codes(tables)}
    for path, written in files.items():
        text, wanted = read(path), written(read(path))
        if write:
            with open(path, "w", encoding="utf-8") as file:
                file.write(wanted)
        else:
            checks.note(text == wanted and "/**< . */" not in text,
                        f"the codes of {path} aren't those of crates/vers_c (--write writes them)")


def owed(name, parameters):
    """The words with which vers.h has to say which handles of an export differ, and which arrays it reads and writes."""
    arrays = re.findall(r"(const )?(?:uint\d+_t|vers_row) \*(\w+)", parameters)
    handles = parameters.count("vers_handle *")
    words = [("One handle", "The two handles differ", "The three handles differ")[handles - 1]]
    words += [f"{'reads' if is_const else 'writes'} `{array}`" for is_const, array in arrays]
    return words + (["no array"] if handles == 1 and not arrays else [])


def check_exports(checks):
    """Checks that vers.h says of each export what its callers owe it, in its comment or in that of its group."""
    text = read(os.path.join(C, "vers.h"))
    exports = text[text.index("/* The exports of the library"):text.index("/* Helpers. */")]
    comment, count = "", 0
    for found in re.finditer(r"(?s)/\*(.*?)\*/|\b(vers_\w+)\(([^()]*)\);", exports):
        said, name, parameters = found.groups()
        if said is not None:
            comment = re.sub(r"\s+(\* +)?", " ", said)
            continue
        count += 1
        missing = [it for it in owed(name, parameters)
                   if it not in comment and not (it.startswith("reads `") and "each reads its arrays" in comment)]
        checks.note(not missing, f"vers.h doesn't say of {name}: {', '.join(missing)}")
    checks.note(count > 40, f"vers.h has {count} exports")


def check_c(checks, link):
    """C: the header in both languages, tests, and tests under valgrind."""
    for compiler in ("gcc", "clang"):
        if not checks.has(compiler, f"C by {compiler}"):
            continue
        for name, more in (("test", ["-lpthread"]), ("test_memory", [REFUSING, "-Wl,--wrap=free"])):
            made = checks.path(f"{name}_{compiler}")
            strict = ["-std=c99", "-Wcast-qual", *STRICT]
            command = [compiler, *strict, os.path.join(C, f"{name}.c"), "-o", made, *link, *more]
            if checks.run(f"C by {compiler}", command) and checks.run(f"C by {compiler}", [made]):
                valgrind(checks, f"C by {compiler}", made, name == "test" and compiler == "gcc")


def valgrind(checks, what, program, has_threads):
    """Runs a program under memcheck, and one with threads under helgrind."""
    if checks.has("valgrind", f"{what} under memcheck and helgrind"):
        checks.run(f"{what}, memcheck", ["valgrind", "-q", "--leak-check=full", "--error-exitcode=9", program])
        if has_threads:
            checks.run(f"{what}, helgrind", ["valgrind", "-q", "--tool=helgrind", "--error-exitcode=9", program])


def check_cpp(checks, link):
    """C++: tests in C++20 and C++17, and the header without exceptions and for a sanitizer."""
    for compiler in ("g++", "clang++"):
        if not checks.has(compiler, f"C++ by {compiler}"):
            continue
        made, test = checks.path(f"test_{compiler}"), os.path.join(CPP, "test.cpp")
        for standard in ("c++20", "c++17"):
            compiling = [compiler, f"-std={standard}", *STRICT, f"-I{CPP}", test, "-o", made]
            what = f"{standard} by {compiler}"
            has_passed = checks.run(what, [*compiling, *link, "-lpthread", REFUSING]) and checks.run(what, [made])
        if has_passed:
            valgrind(checks, f"C++ by {compiler}", made, compiler == "g++")
        check_refused(checks, compiler)
        compiling = [compiler, "-std=c++17", *STRICT, f"-I{CPP}", "-fsyntax-only"]
        bare = ["-fno-exceptions", "-fno-rtti", os.path.join(CPP, "example.cpp")]
        checks.run(f"C++ by {compiler} without exceptions", [*compiling, *bare])
        checks.run(f"C++ by {compiler} for a sanitizer", [*compiling, "-fsanitize=undefined", test])


def check_refused(checks, compiler):
    """C++: the header's own words refuse each call that may not compile, and the same file without one compiles."""
    test = os.path.join(CPP, "refused.cpp")
    compiling = [compiler, "-std=c++17", *STRICT, f"-I{CPP}", "-fsyntax-only", test]
    checks.run(f"C++ by {compiler} of what is taken", compiling)
    for number in re.findall(r"REFUSED == (\d+)", read(test)):
        done = subprocess.run([*compiling, f"-DREFUSED={number}"], capture_output=True, text=True, check=False)
        is_refused = done.returncode != 0 and ("the items are" in done.stderr or "deleted" in done.stderr)
        checks.note(is_refused, f"{test} compiles by {compiler} with REFUSED={number}")


def version():
    """The version of the library."""
    return re.search(r'(?m)^version = "(.*)"$', read(os.path.join(C, "Cargo.toml")))[1]


def installed(checks, link):
    """A prefix with headers, libraries, and the packages for pkg-config and CMake."""
    prefix = checks.path("prefix")
    shutil.rmtree(prefix, ignore_errors=True)
    folders = {"include": [os.path.join(C, "vers.h"), os.path.join(CPP, "vers.hpp")], "lib": link, "lib/pkgconfig": [],
               "lib/cmake/vers": glob.glob(os.path.join(C, "*.cmake"))}
    for folder, paths in folders.items():
        os.makedirs(os.path.join(prefix, folder), exist_ok=True)
        for path in paths:
            shutil.copy(path, os.path.join(prefix, folder))
    libraries = " ".join("-l" + os.path.basename(it)[3:-2] for it in link)
    values = {"@PREFIX@": prefix, "@VERSION@": version(), "@LIBRARIES@": libraries}
    with open(os.path.join(prefix, "lib/pkgconfig/vers.pc"), "w", encoding="utf-8") as file:
        file.write(re.sub("@[A-Z]+@", lambda it: values[it[0]], read(os.path.join(C, "vers.pc.in"))))
    return prefix


def check_request(checks, place, request, wanted, libraries=""):
    """Requests the package from CMake: it is found, or the error says what is wanted."""
    project = checks.path("asking")
    os.makedirs(project, exist_ok=True)
    with open(os.path.join(project, "CMakeLists.txt"), "w", encoding="utf-8") as file:
        file.write("cmake_minimum_required(VERSION 3.13)\nproject(asking NONE)\nfind_package(vers ${ASKED} REQUIRED)\n")
    variables = {"vers_DIR": "", "vers_LIBRARY_DIR": libraries, "CMAKE_PREFIX_PATH": place, "ASKED": request}
    command = ["cmake", "-S", project, "-B", f"{project}/build", *(f"-D{it}={variables[it]}" for it in variables)]
    done = subprocess.run(command, capture_output=True, text=True, check=False)
    is_right = (done.returncode != 0) == bool(wanted) and wanted in done.stderr
    checks.note(is_right, f"find_package(vers {request}): {done.stderr}")


def check_requests(checks, place, libraries):
    """What CMake finds in a place: this version, and earlier ones of the same minor number; the libraries that are
    there."""
    number = version()
    minor = number.rpartition(".")[0]
    for request in ("", minor, f"{number};EXACT", "OPTIONAL_COMPONENTS;static;shared"):
        check_request(checks, place, request, "")
    for request in (f"{number}.1", f"{minor}.99", minor.replace(".", ".1"), "0", "99"):
        check_request(checks, place, request, number)
    for library in ("static", "shared"):
        check_request(checks, place, f"COMPONENTS;{library}", "" if library in libraries else f"vers::{library}")
    empty = checks.path("no_library")
    os.makedirs(empty, exist_ok=True)
    check_request(checks, place, "", f"{empty} has no library", empty)


def check_cmake(checks, place, libraries):
    """The package for CMake in a place: what is found, and the examples with each library."""
    build = checks.path("build")
    shutil.rmtree(build, ignore_errors=True)
    check_requests(checks, place, libraries)
    configure = ["cmake", "-S", CPP, "-B", build, f"-DCMAKE_PREFIX_PATH={place}"]
    if checks.run("CMake", configure) and checks.run("CMake", ["cmake", "--build", build]):
        for library, language in itertools.product(libraries, ("c", "cpp")):
            checks.run("example by CMake", ["env", os.path.join(build, f"{language}_{library}")])


def check_cmake_packages(checks, library, prefix):
    """The packages for CMake: that of a prefix, and that of the folder in which cargo builds."""
    if not checks.has("cmake", "the examples by CMake") or not checks.has("make", "the examples by CMake"):
        return
    check_cmake(checks, prefix, ["static"])
    if library.named == "cargo":
        tree = checks.path("tree")
        shutil.copytree(C, os.path.join(tree, "c"), ignore=shutil.ignore_patterns("target"))
        shutil.copytree(CPP, os.path.join(tree, "cpp"))
        os.symlink(library.target, os.path.join(tree, "c", "target"))
        check_cmake(checks, os.path.join(tree, "c"), ["static", "shared"])


def check_pkg_config(checks, prefix):
    """Installed headers and libraries, as pkg-config finds them."""
    if not checks.has("pkg-config", "the examples by pkg-config"):
        return
    environment = {**os.environ, "PKG_CONFIG_PATH": os.path.join(prefix, "lib/pkgconfig")}
    for compiler, source in (("gcc", os.path.join(C, "example.c")), ("g++", os.path.join(CPP, "example.cpp"))):
        line = f"{compiler} {source} -o {checks.path('example')} $(pkg-config --cflags --libs vers)"
        if checks.has(compiler, "an example") and checks.run("pkg-config", ["sh", "-c", line], env=environment):
            checks.run("example by pkg-config", [checks.path("example")])


def modules_of(checks):
    """Returns the Pythons that are there, with the modules that checks use, and notes each check whose module is
    missing."""
    pythons = {os.path.realpath(it): it for it in [sys.executable, "/usr/bin/python3"] if os.path.exists(it)}
    wanted = {"numpy": "numpy arrays", "mypy": "types", "pip": "an installed wheel",
              "distributed": "parts on Dask's workers"}
    if checks.is_quick:
        checks.left_out.append(f"{wanted.pop('pip')} (quick)")
    tried = f"import importlib.util as u; print(*(it for it in {list(wanted)} if u.find_spec(it)))"
    modules = {it: subprocess.check_output([it, "-c", tried], text=True).split() for it in pythons.values()}
    for module, what in wanted.items():
        if not any(module in it for it in modules.values()):
            checks.left_out.append(f"{what} (no {module})")
    return modules


def check_python(checks, library):
    """Python: tests, types, Dask, and what pip installs."""
    environment = {**os.environ, "VERS_C": library.named, "PYTHONPATH": PY, "VERS_LIBRARY": checks.path("libvers.so"),
                   "PIP_NO_INDEX": "1", "PYTHONDONTWRITEBYTECODE": "1", "TMPDIR": checks.folder}
    link = f"import build_wheel; build_wheel.link({checks.path('libvers.so')!r})"
    if not checks.run("shared library", [sys.executable, "-c", link], env=environment):
        return
    modules = modules_of(checks)
    for python, test in itertools.product(modules, ("test_vers.py", "test_habits.py", "test_parts.py")):
        checks.run(f"Python by {python}", [python, os.path.join(PY, "tests", test)], env=environment)
    having = {name: next((it for it in modules if name in modules[it]), None)
              for name in ("mypy", "pip", "distributed")}
    for name in GALLERY:
        checks.run("example", [sys.executable, os.path.join(PY, "examples", f"{name}.py")], env=environment)
    if having["distributed"]:
        checks.run("Dask", [having["distributed"], os.path.join(PY, "examples", "dask_parts.py")], env=environment)
    if having["mypy"]:
        sources = [os.path.join(PY, "vers"), os.path.join(PY, "tests", "typed.py")]
        types = ["--strict", "--cache-dir", checks.path("mypy"), *sources]
        checks.run("types", [having["mypy"], "-m", "mypy", *types], env={**environment, "PYTHONPATH": ""})
    if having["pip"]:
        check_wheel(checks, having["pip"], PY, environment)
        if library.named == "cargo":
            check_source(checks, having["pip"], environment)


def check_wheel(checks, python, source, environment):
    """What pip installs from a folder or a source distribution."""
    site = checks.path("site")
    shutil.rmtree(site, ignore_errors=True)
    wheel = [python, "-m", "pip", "install", "-q", "--no-cache-dir", "--target", site, source]
    test = [python, "-c", "import vers; print(vers.RsVec([1, 0, 1]).rank1(3), vers.__file__)"]
    if checks.run("wheel", wheel, env=environment):
        installed = {**environment, "PYTHONPATH": site, "VERS_LIBRARY": ""}
        checks.run("wheel", test, f"2 {site}/vers/__init__.py\n", env=installed, cwd=checks.folder)


def check_source(checks, python, environment):
    """The source distribution, from which cargo builds; and the one line that a folder without a library ends in."""
    made = f"import build_wheel; print(build_wheel.build_sdist({checks.folder!r}))"
    if checks.run("source distribution", [python, "-c", made], env=environment):
        source = glob.glob(checks.path("vers-*.tar.gz"))[0]
        check_wheel(checks, python, source, {**environment, "VERS_C": ""})
    alone = checks.path("alone")
    shutil.copytree(PY, alone, ignore=shutil.ignore_patterns("__pycache__"))
    link = [python, "-c", "import sys; sys.tracebacklimit = 0; import build_wheel; build_wheel.link('libvers.so')"]
    bare = {**environment, "VERS_C": "", "PYTHONPATH": alone, "PATH": alone}
    run = subprocess.run(link, env=bare, cwd=alone, capture_output=True, text=True, check=False)
    is_one_line = run.returncode == 1 and len(run.stderr.splitlines()) == 1 and run.stderr.startswith("vers: ")
    checks.note(is_one_line, f"what a folder without a library says: {run.stderr}")


def check_pages(checks, link):
    """Runs the programs of the pages, and compares what they print."""
    for page in sorted(glob.glob(os.path.join(HERE, "*", "README.md"))):
        for k, (language, program, printed) in enumerate(FENCE.findall(read(page))):
            suffix = {"c": ".c", "cpp": ".cpp", "python": ".py"}.get(language)
            if suffix is None:
                continue
            source, made = checks.path(f"page{k}{suffix}"), checks.path(f"page{k}")
            with open(source, "w", encoding="utf-8") as file:
                file.write(program)
            command = [sys.executable, source]
            if suffix != ".py":
                compiler = {".c": ["gcc", "-std=c99"], ".cpp": ["g++", "-std=c++17"]}[suffix]
                command = [made]
                compiling = [*compiler, *STRICT, f"-I{CPP}", source, "-o", made, *link]
                if not checks.has(compiler[0], page) or not checks.run(page, compiling):
                    continue
            environment = {**os.environ, "PYTHONPATH": PY, "VERS_LIBRARY": checks.path("libvers.so")}
            checks.run(os.path.relpath(page, TOP), command, printed, env=environment)


def check_all(checks, library):
    """Runs all checks that want a library."""
    checks.library = f"{library.name}: "
    if not library.built(checks):
        return
    link = library.link()
    with ThreadPoolExecutor(2) as pool:
        parts = [pool.submit(it, checks, library, link) for it in (check_compiled, check_interpreted)]
        for part in parts:
            part.result()


def check_compiled(checks, library, link):
    """C and C++: tests, and what is installed."""
    check_c(checks, link)
    check_cpp(checks, link)
    prefix = installed(checks, link)
    check_pkg_config(checks, prefix)
    check_cmake_packages(checks, library, prefix)


def check_interpreted(checks, library, link):
    """Python, and the pages, which use the shared library of its tests."""
    check_python(checks, library)
    check_pages(checks, link)


# What `--text` has to print, and where which text is written instead of which.
PLANTS = (
    ("vers.h aren't those of crates/vers_c", "bindings/c/vers.h", "VERS_KIND_BITS = 1,", "VERS_KIND_BITS = 2,"),
    ("_codes.py aren't those of crates/vers_c", "bindings/python/vers/_codes.py", "\nVACANT = 3\n", "\nVACANT = 4\n"),
    ("doesn't say of vers_combine: The three handles differ", "bindings/c/vers.h", "The three handles", "The handles"),
    ("doesn't say of vers_save: writes `bytes`", "bindings/c/vers.h", "writes `bytes`", "writes bytes"),
)


def self_test():
    """Returns the exit status, 1 if a plant isn't found, or a command that fails doesn't count as failed."""
    missed = [*missed_plants(("bindings/check.py", "--text"), ("crates", "bindings", "tools"), PLANTS)]
    checks = Checks(True)
    with contextlib.redirect_stdout(io.StringIO()):
        for command, wanted in ((["false"], None), (["echo", "a"], "b\n"), (["echo", "a"], "a\n"), (["true"], None)):
            checks.run("", command, wanted)
    shutil.rmtree(checks.folder)
    counts = checks.passed, checks.failed, bool(checks.has("valgrind", "")), checks.left_out
    if counts != (2, 2, False, [" (quick)"]):
        missed.append(f"counted as {counts}")
    return report_tests(len(PLANTS) + 1, missed)


def main(arguments):
    """Runs all checks."""
    if arguments == ["--self-test"]:
        return self_test()
    checks = Checks("--quick" in arguments)
    archives = [it for it in arguments if not it.startswith("--")]
    libraries = [Proved(os.path.abspath((archives or [ARCHIVE])[0]))] if "--cargo" not in arguments else []
    libraries += [Cargo(checks.path("target"))] if not archives else []
    libraries = [] if {"--write", "--text"} & {*arguments} else libraries
    try:
        check_codes(checks, "--write" in arguments)
        check_exports(checks)
        for library in libraries:
            check_all(checks, library)
    finally:
        shutil.rmtree(checks.folder)
    if "--write" in arguments:
        return 0
    for what in dict.fromkeys(checks.left_out):
        print(f"left out: {what}")
    print(f"{checks.passed} passed, {checks.failed} failed")
    return int(checks.failed > 0)


if __name__ == "__main__":
    sys.exit(main(sys.argv[1:]))
