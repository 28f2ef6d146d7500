"""For pytest: a program of threads is right whatever POSIX may do to it. BUFFER names the program."""
import json
import os
import subprocess


def test_buffer() -> None:
    words = ["monk-try", "--json", "-n", "2", "--kinds", "NPNB", "--", *os.environ["BUFFER"].split()]
    done = subprocess.run(words, stdout=subprocess.PIPE, universal_newlines=True)
    told = json.loads(done.stdout)
    assert done.returncode == 0, f"{told['lesson']['text']}\n{told['first_wrong']['again']}"
