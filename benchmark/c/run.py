"""Builds the library for C and a program that has it beside omniORB's, and runs that."""
import pathlib
import subprocess
import tempfile

from driver.workspace import TOP

HERE = pathlib.Path(__file__).resolve().parent


def run(_benchmark):
    subprocess.run([TOP / "c" / "build"], check=True, stdout=subprocess.DEVNULL)
    with tempfile.TemporaryDirectory() as room:
        made = pathlib.Path(room)
        subprocess.run(["omniidl", "-bcxx", "-C", made, HERE / "values.idl"], check=True)
        program = made / "measure"
        words = ["g++", "-std=c++17", "-O2", "-I", made, "-I", TOP / "c", HERE / "measure.cpp", made / "valuesSK.cc"]
        words += [TOP / "dist" / "c" / "libidlc.a", "-lomniORB4", "-lomnithread", "-o", program]
        subprocess.run(words, check=True)
        subprocess.run([program, HERE / "values.idl"], check=True)
