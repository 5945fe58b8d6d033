"""The cases notice a wrong program: in each of the ways below a wrapper spoils what the program says, and some case has to fail
that doesn't where the wrapper spoils nothing. Cases whose output isn't read are left out, since a wrapper shows there."""
import os
import re
import shlex
import shutil
import tempfile

import cases
import programs
import pytest

READ = [it for it in cases.all_cases("cases") if it.stdout is None]
# (cases that stand together notice the same, so those that stand far apart are tried first)
STRIDE = 41
TRIED = [it for start in range(STRIDE) for it in READ[start::STRIDE]]
NOTHING = ":"
# (what the wrapper does with the output $out, the line of standard error $err, and the status)
WAYS = {
    "a row left out": "sed -i 2d $out",
    "a count one too high": """awk -F, -v OFS=, 'NR == 1 { for (at = 1; at <= NF; at++) if ($at == "count(*)") count = at }
        NR > 1 && count { $count++ } { print }' $out >$new; cp $new $out""",
    "a refusal's code changed": """awk -F, -v OFS=, 'NR == 1 { is_refusals = $0 == "source,record,code" }
        NR > 1 && is_refusals { $3++ } { print }' $out >$new; cp $new $out""",
    "status 0 for 4": "[ $status -ne 4 ] || status=0",
    "a part's rows printed twice": """awk -F, 'NR == 1 { for (at = NF; at; at--) if ($at ~ /^grouping/) first = at } { print }
        NR > 1 && first && $first == 1 { print }' $out >$new; cp $new $out""",
    r"\N printed for an empty text": r"sed -i '2,$s/^,/\\N,/; 2,$s/,,/,\\N,/g' $out",
    "the last line end missing": "head -c -1 $out >$new; cp $new $out",
    "a fault told as another": "sed -i 's/F3$/F4/; s/S4$/S5/' $err",
    "a number's last decimal left out": r"sed -i -E '2,$s/(,-?[0-9]+[.][0-9]+)[0-9](,|$)/\1\2/g' $out",
    "zero with a sign": "sed -i 's/,0[.]00/,-0.00/g' $out",
    "a mean of units": r"sed -i -E '2,$s,/([0-9]+)00$,/\1,' $out",
    "S11 told for S12": "sed -i 's/S12$/S11/' $err",
    "S12 told for S13": "sed -i 's/S13$/S12/' $err",
    "G2 told for G3": "sed -i 's/^datacube: G3 .*/datacube: G2/' $err",
    "S1 told for each fault of a schema": "sed -i 's/^datacube: S[0-9]*$/datacube: S1/' $err",
    "F1 told for F2": "sed -i 's/F2$/F1/' $err",
    "a note under another code": "sed -i '1s/^G4: run$/G5: run/' $out",
    "the grand total always printed": r"""grep -q '^.N,.N,1,1,' $out || ! grep -q '^region,kind,g' $out ||
        echo '\N,\N,1,1,0' >>$out""",
    "status 3 for 2": "[ $status -ne 2 ] || status=3",
}


# (what the texts have of the cases that are tried first, for ways that few of the others notice)
LIKELY = {
    r"\N printed for an empty text": "^,|,,",
    "a fault told as another": "(F3|S4)$",
    "a number's last decimal left out": r"[.]\d+,",
    "zero with a sign": ",0[.]00",
    "a mean of units": r"/\d+00$",
    "S11 told for S12": "S12$",
    "S12 told for S13": "S13$",
    "G2 told for G3": "G3 ",
    "S1 told for each fault of a schema": r"S[2-9]\d?$",
    "F1 told for F2": "F2$",
    "a note under another code": "^G4: run$",
    "the grand total always printed": r"\Aregion,kind,g(?![\s\S]*^.N,.N,1,1,)",
}


def tried_for(way):
    """The cases in the order in which they are tried."""
    text = lambda case: b"".join(value for _, value in map(cases.wanted_of, case.out + case.err)).decode(errors="replace")
    likely = re.compile(LIKELY.get(way, ""), re.MULTILINE)
    return sorted(TRIED, key=lambda case: not likely.search(text(case)))


def wrapper_of(spoiling, program, room):
    """The text of a program that spoils what another says, and has its files in a folder while it runs."""
    return f"""#!/bin/sh
at={shlex.quote(room)}/$$
out=$at.out err=$at.err new=$at.new
{shlex.quote(program)} "$@" >$out 2>$err
status=$?
{spoiling}
[ ! -s $err ] || cat $err >&2
cat $out
rm -f $out $err $new
exit $status
"""


@pytest.fixture(scope="session")
def folder(program):
    """A folder with the program, and one in which whoever runs a wrapper may write."""
    with tempfile.TemporaryDirectory(prefix="datacube-spoiled-") as folder:
        os.chmod(folder, 0o755)
        os.mkdir(f"{folder}/files")
        os.chmod(f"{folder}/files", 0o1777)
        shutil.copy(program, f"{folder}/program")
        yield folder


def failing(tried, spoiling, folder):
    """The first of some cases that fails on the spoiled program, or None."""
    wrapper = f"{folder}/spoiled"
    programs.write(wrapper, wrapper_of(spoiling, f"{folder}/program", f"{folder}/files"))
    os.chmod(wrapper, 0o755)
    with cases.room_of(wrapper) as room:
        return next((case for at, case in enumerate(tried) if cases.try_case(case, at, room)), None)


@pytest.mark.parametrize("way", WAYS)
def test_spoiled(way, folder):
    noticed = failing(tried_for(way), WAYS[way], folder)
    assert noticed, "no case notices it"
    assert not failing([noticed], NOTHING, folder), f"the wrapper itself is noticed by {noticed.place}"
