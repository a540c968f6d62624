"""Runs the calls of a script of tests/procedures: `calls.py LIBRARY < SCRIPT` writes their answer. Calls name their keys by
texts, by looked-up keys, and by both in turn. In turn a segment runs as a list, is a text that a second machine applies, and
runs call by call. The machine is compacted now and then."""
import sys
from pathlib import Path

sys.path.insert(0, str(Path(__file__).resolve().parents[2] / "packaging" / "python"))
import bohm  # noqa: E402


def named(machine, known, turn, names):
    """The keys as the call of this turn names them."""
    for name in names[:(0, 1, len(names))[turn % 3]]:
        if name not in known:
            known[name] = machine.key(name)
    return [known[name] if turn % 3 > (place > 0) else name for place, name in enumerate(names)]


def main(library, lines):
    library, machine, second = bohm.load(library), None, None
    store, text, procedures, calls, known, turn, segment = "", "", [], [], {}, 0, 0
    for line in lines:
        word, _, rest = line.rstrip("\n").partition(" ")
        if word == "store":
            store += rest + "\n"
        elif word == "line":
            text += rest + "\n"
        elif word == "prepare":
            machine = machine or bohm.Machine(store, library=library)
            second = second or bohm.Machine.open_rows(machine.store_rows(), library=library)
            procedures.append(machine.prepare(text))
            text = ""
        elif word == "push":
            number, count, *words = rest.split(" ")
            keys, turn = named(machine, known, turn, words[:int(count)]), turn + 1
            values = [int(value) for value in words[int(count) + 1:]]
            calls.append(procedures[int(number)].call(*keys, *values))
        elif word == "run":
            told = second.apply(machine.calls_text(calls))
            replies = machine.run(calls) if segment % 3 < 2 else [call.procedure(*call.keys, *call.values) for call in calls]
            sys.stdout.writelines(f"{reply}\n" for reply in (told if segment % 3 == 1 else replies))
            if segment % 3:
                machine.compact()
            calls, segment = [], segment + 1
    again = bohm.Machine(machine.snapshot(), machine.top, library=library)
    assert again.digest() == machine.digest() == second.digest()
    try:
        machine.prepare("procedure 1\nkey k\nreads k\nwrites\nend").call(again.key("a"))
    except ValueError:
        pass
    else:
        raise AssertionError("another machine's key is taken")
    sys.stdout.write("--\n" + "".join(f"{key} {value}\n" for key, value in machine.store_at().items()))


main(sys.argv[1], sys.stdin)
