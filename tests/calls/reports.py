"""Prepares procedures for tests/reports, as reports.c does: `reports.py LIBRARY < TEXTS`."""
import sys
from pathlib import Path

sys.path.insert(0, str(Path(__file__).resolve().parents[2] / "packaging" / "python"))
import bohm  # noqa: E402


def statements(procedure):
    """The lines of its statements."""
    number = 1
    while True:
        try:
            line, text = procedure.statement(number)
        except IndexError:
            break
        yield f"{number} {line} {text}"
        number += 1
    for none in (0, -1, 1000, (1 << 32) - 1, 1 << 32, 1 << 64):
        try:
            procedure.statement(none)
        except IndexError:
            continue
        raise AssertionError("a statement that isn't there")


def main(library, lines):
    machine = bohm.Machine("log 2\n", library=bohm.load(library))
    for line in lines:
        try:
            told = list(statements(machine.prepare(bytes.fromhex(line))))
        except bohm.RefusedError as refusal:
            assert str(refusal).startswith(refusal.line)
            told = ["refused", str(refusal)]
        print(*told, "--", sep="\n")


main(sys.argv[1], sys.stdin)
