"""What all checks share: the check's name, the built programs, and how a check says what came of it."""
import os
import sys

NAME = os.path.basename(sys.argv[0])
PROGRAM = os.path.abspath(os.environ.get("EMFSTORE", "crates/emfstore/out/emfstore"))
TOOLS = os.path.abspath(os.environ.get("EMFTOOLS", "crates/emftools/out/emftools"))
NO_PROGRAM = "no built program"


def is_built():
    return os.path.exists(PROGRAM)


def are_built():
    """Whether both programs are there."""
    return is_built() and os.path.exists(TOOLS)


def built():
    """The path of the built program; without one the check is skipped."""
    return PROGRAM if is_built() else skip(NO_PROGRAM)


def of_scripts():
    """The words of each built program that answers a script: `emfstore`, and `emftools` as a guard that lets all in. Without the first it is skipped."""
    return [[built()]] + ([[TOOLS, "guard", "ann", "ann:admin"]] if are_built() else [])


def skip(why):
    """Ends a check that can't be made here."""
    print(f"{NAME}: skipped, {why}")
    sys.exit(0)


def skip_part(what, why):
    """Tells a part that can't be tried here; the check goes on."""
    print(f"{NAME}: {what} skipped, {why}")


def end(faults, what):
    """Ends the check: each fault has a line, and the last line says whether all passed, and what was run."""
    for fault in faults:
        print(f"{NAME}: {fault}")
    print(f"{NAME}: {'failed' if faults else 'passed'}: {what}")
    sys.exit(1 if faults else 0)
