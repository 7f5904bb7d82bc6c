"""Measures the reading and judging of the table of the 4,000 structures of benchmark/compile, which `./idlc` makes: it
proves and builds what is missing of the program.
"""
import importlib.util
import pathlib
import subprocess
import tempfile

from driver.workspace import TOP


def source_of(count):
    spec = importlib.util.spec_from_file_location("compiled", TOP / "benchmark" / "compile" / "run.py")
    module = importlib.util.module_from_spec(spec)
    spec.loader.exec_module(module)
    return module.source_of(count)


def run(benchmark):
    program, head = benchmark.build()
    print(head, end="", flush=True)
    with tempfile.TemporaryDirectory() as room:
        source, table = pathlib.Path(room) / "types.idl", pathlib.Path(room) / "types.table"
        source.write_text(source_of(4000))
        subprocess.run([TOP / "idlc", "compile", source, "-o", table], check=True, stdout=subprocess.DEVNULL)
        subprocess.run([program, table], check=True)
