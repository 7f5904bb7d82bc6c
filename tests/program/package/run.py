"""Makes the package, and tries what is in it in a folder and an environment that have nothing of the repository."""
import hashlib
import os
import re
import shutil
import tarfile

from driver.suite import Count
from driver.workspace import TOP

# the sample value: an octet 7, an unsigned long 1 and the string "hi"
TAPE, OCTETS = "0700000001000000026869", "070000000000000100000003686900"


def check_sums(top, count):
    lines = (top / "SHA256SUMS").read_text().splitlines()
    sums = {name: found for found, name in (line.split("  ") for line in lines)}
    files = {str(path.relative_to(top)) for path in top.rglob("*") if path.is_file()}
    count.add(files == {*sums, "SHA256SUMS"}, f"files without a sum, or sums without a file: {files ^ {*sums}}")
    for name, wanted in sums.items():
        count.add(hashlib.sha256((top / name).read_bytes()).hexdigest() == wanted, f"{name}: another sum")


def check_links(top, count):
    """Each relative link of a packed document leads to a packed file."""
    found = 0
    for document in sorted(top.rglob("*.md")):
        for target in re.findall(r"\]\(([^)#\s]+)", document.read_text()):
            if "://" not in target:
                found += 1
                count.add((document.parent / target).is_file(), f"{document.relative_to(top)}: no {target} in the package")
    count.add(found >= 15, f"{found} links")


def run_program(test, top, count):
    """Runs the program with no environment: nothing of the toolchain is on the path."""
    files = test.room / "files"
    files.mkdir()

    def expect(line, *words):
        done = test.call([top / "bin/idlc", *words], cwd=files, env={})
        count.add((done.status, done.out) == (0, f"{line}\n"), f"{words}: {done}")

    expect(OCTETS, "encode", "builtin", "S", "big", 0, TAPE)
    expect("accepted 20", "compile", top / "examples/idl/echo.idl", "-o", "echo.table")
    expect("accepted 20", "check", "echo.table")


def check_manual(test, top, count):
    """The completions and the man page lie beside bin/, where systems look for them."""
    completion = top / "share/bash-completion/completions/idlc"
    done = test.call(["bash", "--norc", "-c", 'source "$1" && complete -p idlc', "bash", completion], env={})
    count.add((done.status, done.out, done.err) == (0, "complete -F _idlc idlc\n", ""), f"bash: {done}")
    text = (top / "share/zsh/site-functions/_idlc").read_text()
    count.add(text.startswith("#compdef idlc\n"), f"zsh: {text[:80]}")
    text = (top / "share/man/man1/idlc.1").read_text()
    version = (top / "VERSION").read_text().strip()
    count.add(re.search(rf'^\.TH IDLC 1 "[\d-]+" "idlc {version}"', text, re.MULTILINE), f"man page: {text[:200]}")


def run_preprocessor(test, top, count):
    """Runs the script beside the program on a file that is here, where there is a preprocessor."""
    files = test.room / "included"
    files.mkdir()
    (files / "all.idl").write_text('#pragma prefix "all"\n#include <echo.idl>\n')
    if shutil.which("cpp"):
        env = {"PATH": os.environ["PATH"]}
        done = test.call([top / "bin/idl-cpp", "-I", top / "examples/idl", "all.idl"], cwd=files, env=env)
        (files / "all.i").write_text(done.out)
        count.add(done.status == 0 and '\n#pragma prefix ""\n' in done.out, f"idl-cpp: {done}")
        done = test.call([top / "bin/idlc", "check", "all.i"], cwd=files, env={})
        count.add((done.status, done.out) == (0, "accepted 20\n"), f"all.i: {done}")


def run(test):
    count = Count(0, [])
    made = test.call([TOP / "package", "--folder", test.room])
    if made.status:
        return Count(0, [made.out + made.err])
    with tarfile.open(made.out.strip()) as archive:
        archive.extractall(test.room)
    top = test.room / os.path.basename(made.out.strip()).removesuffix(".tar.gz")
    check_sums(top, count)
    check_links(top, count)
    run_program(test, top, count)
    check_manual(test, top, count)
    run_preprocessor(test, top, count)
    proved = (top / "PROVED").read_text()
    count.add(re.search(r"commit [0-9a-f]{40}.* proved with rattle-kit-\w+ ", proved), proved)
    return count
