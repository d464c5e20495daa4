"""What is done of a campaign, in a folder. It is found again by what was asked, a seed and how many traces or the text
of a script; the file and the program are the same by their checksums."""
import fcntl
import json
import os
import shutil
import tempfile
import zlib
from typing import Any

from lokwurmi_tools.campaigns.campaign_faults import Wrong, say


def read_bytes(file: str) -> bytes:
    with open(file, "rb") as it:
        return it.read()


class KeptAnswers:
    """The answers that a folder holds, each under the key of its unit: a line of JSON an answer, in the file
    done.jsonl.

    The first line tells which campaign it is.
    """

    def __init__(self, folder: str | None, campaign: dict[str, str]):
        self.is_passing = folder is None
        self.folder = folder or tempfile.mkdtemp(prefix="lokwurmi-campaign-")
        os.makedirs(self.folder, exist_ok=True)
        self.answers: dict[str, bytes] = {}
        self.path = os.path.join(self.folder, "done.jsonl")
        self.file = open(self.path, "a+b")
        try:
            fcntl.flock(self.file, fcntl.LOCK_EX | fcntl.LOCK_NB)
        except OSError:
            raise Wrong(f"{self.folder}: another campaign is at work in it: wait for its end, or take another folder")
        self.read(campaign)

    def read(self, campaign: dict[str, str]) -> None:
        self.file.seek(0)
        end = 0
        for place, line in enumerate(self.file):
            # a campaign that was killed may have left a part of a line
            if not line.endswith(b"\n"):
                break
            try:
                it = json.loads(line)
                if place:
                    status, text = it["answer"]
                    if type(status) is not int or status < 10 and not text.splitlines()[-1].startswith("summary "):
                        raise ValueError
                    self.answers[it["key"]] = zlib.compress(json.dumps([status, text + ""]).encode())
                elif other := [name for name in campaign if it[name] != campaign[name]]:
                    raise Wrong(
                        f"{self.folder}: is of a campaign with another {other[0]}:"
                        " take another folder, or remove this one"
                    )
            except (ValueError, KeyError, TypeError, IndexError, AttributeError):
                raise Wrong(f"{self.path}: line {place + 1} is none of a campaign: take another folder")
            end += len(line)
        self.file.truncate(end)
        if end == 0:
            self.write(campaign)

    def write(self, it: dict[str, Any]) -> None:
        self.file.write(json.dumps(it).encode() + b"\n")
        self.file.flush()

    def add(self, key: str, answer: tuple[int, str]) -> None:
        self.answers[key] = zlib.compress(json.dumps(answer).encode())
        self.write({"key": key, "answer": answer})

    def __contains__(self, key: str) -> bool:
        return key in self.answers

    def __getitem__(self, key: str) -> tuple[int, str]:
        status, text = json.loads(zlib.decompress(self.answers[key]))
        return status, text

    def tell(self) -> None:
        """Says how to go on, where something is kept."""
        if not self.answers:
            self.close()
            return
        say(f"{len(self.answers)} calls are done and kept: the same words with --resume {self.folder} do the rest")

    def close(self) -> None:
        """Nothing is left to do: a folder that wasn't asked for goes."""
        self.file.close()
        if self.is_passing:
            shutil.rmtree(self.folder, ignore_errors=True)
