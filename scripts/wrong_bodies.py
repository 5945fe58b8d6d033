"""Tries the wrong bodies that the gate leaves out, those in crates/NAME/wrong-bodies/: the prover must refuse each.

    scripts/wrong_bodies.sh [NAME...]

All crates that have some are tried, or those named. It takes the kit, and a quarter of a minute an edit once all crates are
proved, which comes first where the kit hasn't kept it from an earlier run. The last line is `N passed, M failed`.
"""
import subprocess
import sys
import tempfile

sys.dont_write_bytecode = True
import edits
import programs


def main():
    with tempfile.TemporaryDirectory(prefix="wrong-bodies-") as copy:
        edits.copy_sources(copy)
        trials, tally = edits.Trials(copy, "wrong-bodies", names=sys.argv[1:]), programs.Tally()
        proofs = subprocess.Popen([sys.executable, "-B", f"{programs.ROOT}/scripts/proofs.py"], cwd=copy, stdin=subprocess.DEVNULL, stdout=subprocess.PIPE, stderr=subprocess.STDOUT, text=True)
        for line in proofs.stdout:
            trials.see(line)
        for it in trials.results():
            tally.note(it.is_refused, it.text)
    return tally.end()


if __name__ == "__main__":
    sys.exit(main())
