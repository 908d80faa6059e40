"""The programs that benches compare: the built one, and the plain ones, which are compiled in a moment."""
import os
import subprocess
import sys

HERE = os.path.dirname(os.path.realpath(__file__))
TOP = os.path.dirname(HERE)
NAMES = ["dynamo", "plain", "shared"]


def built(given):
    """Returns the program that was given, or the one that is built of these sources."""
    program = given
    if not program:
        told = subprocess.run([f"{TOP}/tools/build", "--where"], stdout=subprocess.PIPE, check=True, encoding="utf-8")
        program = told.stdout.strip()
    if not os.access(program, os.X_OK):
        sys.exit(f"{os.path.basename(sys.argv[0])}: there is no program {program}; ./dynamo build makes it")
    return os.path.realpath(program)


def all_of(given, folder):
    """Returns the built program and the plain ones, by their names in tables."""
    program = built(given)
    subprocess.run([f"{HERE}/plain/build", folder], check=True)
    return dict(zip(NAMES, [program, f"{folder}/plain", f"{folder}/plain-shared"]))
