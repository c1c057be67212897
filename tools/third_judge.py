"""The judge of web/judge.html, run in node, for tools/test_second_check.py."""

import os
import shutil
import subprocess
from typing import Optional

TOP = os.path.dirname(os.path.dirname(os.path.abspath(__file__)))
JUDGE = os.path.join(TOP, "web", "judge_node.js")
STATUSES = {"yes": 0, "no": 1, "refused": 3}


class ThirdJudge:
    """One process of node that judges text after text."""

    def __init__(self, node: str):
        self.process = subprocess.Popen([node, JUDGE, "serve"], stdin=subprocess.PIPE, stdout=subprocess.PIPE)

    def judge(self, command: str, data: bytes) -> "tuple[str, Optional[int]]":
        """Returns the line that the judge writes of a text, and the status with which a run of it ends."""
        self.process.stdin.write(f"{command} {len(data)}\n".encode() + data)
        self.process.stdin.flush()
        row = self.process.stdout.readline().decode("latin-1")
        return row, STATUSES.get(row.strip().split(",")[0])


def third_judge() -> Optional[ThirdJudge]:
    """Returns the judge, or None where node isn't installed."""
    node = shutil.which("node")
    return ThirdJudge(node) if node else None
