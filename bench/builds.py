"""Finds the programs that are measured."""
import subprocess
from pathlib import Path

TOP = Path(__file__).resolve().parent.parent


def build_of(word):
    """The build of the present sources for a program of programs.txt, or a nonexistent path if there is none."""
    ran = subprocess.run([TOP / "scripts/choose", word], stdout=subprocess.PIPE, text=True)
    return str(TOP / (ran.stdout.strip() or f"out/proved/{word}"))
