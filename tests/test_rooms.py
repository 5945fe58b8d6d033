"""What is written of a case that fails: scripts/cases.py reads the same of it."""
import cases
import programs
import generated as make
from rooms import Room
from strategies import tries

PIECES = [b"a", b"\n", b"\r\n", b"\\", b"x41", b"\\x41", b"#", b"##", b"| ", b"|. ", b'"', b"'", b"$1", b"{1..3}", b" ", b",", b"\xff",
          "grüße".encode(), b"\x00", b"\x85", "\u2028".encode(), b"\\N", b"`", b"-"]


def text(rng):
    return b"".join(make.series(rng, 20, lambda rng: rng.choice(PIECES)))


@tries(50)
def test_a_case_that_is_written_is_read_back(room, rng):
    words = [b"print", *(text(rng).replace(b"\x00", b"") for _ in range(rng.randint(0, 3)))]
    other, files = Room(room.program, room.folder), {"one": text(rng), "two": text(rng)}
    other.begin("test_of_a_case")
    other.files, other.earlier = files, [(words, text(rng))]
    status, out, given = rng.choice([0, 1, 4]), text(rng), text(rng)
    path = f"{room.folder}/found.case"
    programs.write(path, other.block("why", words, (status, out, b"datacube: G3 1 F3\n"), given))
    [case] = cases.read_cases(path)
    assert (case.name, case.words, case.status) == ("of a case", words, status)
    assert [(it, cases.bytes_of("".join(lines))) for it, lines in case.before] == other.earlier
    assert cases.wrong("the output", case.out, out) is None and cases.wrong("standard error", case.err, b"datacube: G3 1 F3\n") is None
    for kind, name, what in case.made:
        cases.make(room.folder, kind, name, what)
    for name, data in [*files.items(), *([(case.stdin, given)] if given else [])]:
        assert programs.read(f"{room.folder}/{name}") == data
