"""What all models need: the program, and the words of their own command."""
import sys
from pathlib import Path

TOP = Path(__file__).resolve().parent.parent
PROGRAM = TOP / "crates/carafe_cli/out/carafe_cli"


def read_words():
    """How many inputs to draw, and the first seed."""
    if not PROGRAM.exists():
        sys.exit(f"build the program first: {TOP / 'scripts/prove'}")
    numbers = [int(word) for word in sys.argv[1:3]]
    return (numbers + [200, 0][len(numbers) :])[:2]
