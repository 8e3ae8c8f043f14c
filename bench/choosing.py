"""How `choose` ends on a source, by the built program, and what the certificate opens that it stores."""

import os
import resource
import subprocess
import sys
from pathlib import Path
from typing import NamedTuple, Optional

TOP = Path(__file__).resolve().parent.parent
PROGRAM = Path(os.environ.get("VIADUCT", TOP / "crates" / "viaduct" / "out" / "viaduct"))
NO_ASSIGNMENT = 9
SPENT = 10


class Choice(NamedTuple):
    """What a run of `choose` came to. Of a budget that was spent nothing but the time is known."""

    status: int
    seconds: float  # of the processor, of the whole program
    slots: int = 0
    cost: Optional[int] = None
    form: int = 0  # of the certificate
    shifts: int = 0
    opened: int = 0  # its marks E

    def is_spent(self):
        return self.status == SPENT


def build():
    """Builds the program where it is not built."""
    if not PROGRAM.exists():
        subprocess.run([str(TOP / "viaduct"), "--proved", "--version"], check=True, stdout=subprocess.DEVNULL)


def viaduct(*words):
    return subprocess.run([str(PROGRAM), *map(str, words)], capture_output=True, text=True, check=False)


def processor_seconds():
    """Of all programs that were run so far."""
    used = resource.getrusage(resource.RUSAGE_CHILDREN)
    return used.ru_utime + used.ru_stime


def refuse(path, words):
    print(f"{path}: {words}", file=sys.stderr)
    sys.exit(1)


def read_certificate(path):
    """The form of a certificate, the number of its shifts, and that of its marks E."""
    lines = path.read_text().splitlines()
    shifts = int(lines[2].split()[1]) if lines[2].startswith("shifts ") else 0
    return int(lines[0].split()[1]), shifts, lines[-1].count("E")


def choose(path):
    """Chooses for a source, and has the certificate checked. Another end than a choice, none or a spent budget ends the script."""
    before = processor_seconds()
    said = viaduct("choose", path)
    seconds = processor_seconds() - before
    if said.returncode == SPENT:
        return Choice(said.returncode, seconds)
    if said.returncode not in (0, NO_ASSIGNMENT):
        refuse(path, f"choose ends with {said.returncode}: {said.stderr.strip()}")
    certificate = Path(f"{path}.cert")
    checked = viaduct("certify", path, certificate)
    cost = int(said.stdout.split()[-1]) if said.returncode == 0 else None
    wanted = "empty" if cost is None else f"least {cost}"
    if checked.stdout.strip() != wanted:
        refuse(path, f"certify says {checked.stdout.strip()}{checked.stderr.strip()}, where {wanted} is to come")
    form, shifts, opened = read_certificate(certificate)
    slots = said.stdout.count("\n") - 1 if said.stdout else 0
    return Choice(said.returncode, seconds, slots, cost, form, shifts, opened)
