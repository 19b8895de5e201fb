"""Where things stand in the repository, found from this file's own place."""

from pathlib import Path

ROOT = Path(__file__).resolve().parents[2]
REFUSALS = ROOT / "docs" / "REFUSALS.md"
TURNS = ROOT / "target" / "bin" / "turns"
