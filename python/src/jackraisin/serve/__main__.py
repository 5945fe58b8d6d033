"""The command `python -m jackraisin.serve`, where what it needs is there."""
import sys

from ._needs import lack

if lack():
    sys.exit(f"jackraisin.serve: {lack()}")

from ._command import main  # noqa: E402

if __name__ == "__main__":
    sys.exit(main())
