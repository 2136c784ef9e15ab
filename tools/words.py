"""Prints the words of each page beside the most that it may have.

usage: python3 tools/words.py

Words are counted as `wc -w` counts them. Ends with status 1 if a page has more than it may, else with 0.
"""

import sys
from pathlib import Path

HOUSE = Path(__file__).resolve().parent.parent
# The pages that share a limit, and the limit.
LIMITS = {
    ("README.md",): 1700,
    ("docs/architecture.md",): 1465,
    ("docs/DECISIONS.md",): 4095,
    ("docs/definitions.md",): 4200,
    ("docs/theorems.md",): 6750,
    ("docs/formats.md",): 9100,
    ("docs/client.md",): 9150,
    ("docs/questions.md", "docs/trust.md"): 2590,
    ("docs/owners.md", "docs/service.md"): 1715,
    ("bench/README.md", "vectors/README.md"): 3100,
    ("CONTRIBUTING.md", "SECURITY.md", "CHANGELOG.md"): 770,
}


def main() -> int:
    over = 0
    for pages, limit in LIMITS.items():
        words = sum(len((HOUSE / page).read_text(encoding="utf-8").split()) for page in pages)
        over += words > limit
        print(f"{words:6} of {limit:5}  {', '.join(pages)}{'  TOO LONG' if words > limit else ''}")
    return 1 if over else 0


if __name__ == "__main__":
    sys.exit(main())
