"""Rows of a program, and what it must write: each row, and behind a question what it is answered."""
import json
from pathlib import Path

CRATES = Path(__file__).resolve().parent.parent / "crates"


def compact(value):
    return json.dumps(value, separators=(",", ":"), ensure_ascii=False)


class Transcript:
    def __init__(self, crate):
        self.crate, self.asked, self.told = crate, [], []

    def step(self, text):
        self.asked.append(text)
        self.told.append(text)

    def ask(self, text, answer):
        self.asked.append(text)
        self.told.append(f"{text} =>{answer}")

    def title(self, text):
        self.step("")
        self.step(f"# {text}")

    def write(self):
        for name, rows in [("stdin", self.asked), ("stdout", self.told)]:
            (CRATES / self.crate / name).write_text("".join(f"{row}\n" for row in rows), encoding="utf-8")
