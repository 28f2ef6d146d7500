"""Programs of Debian that run threads. Each that is there must give the output of a plain run under each kind."""
import itertools
import os
import shutil
import subprocess
import sys
from typing import Dict, List, Tuple

FOUR_THREADS = """
import queue, threading
asked, told = queue.Queue(8), queue.Queue()
def work():
    while (number := asked.get(timeout=9)) is not None:
        told.put(number * number)
threads = [threading.Thread(target=work) for _ in range(4)]
for thread in threads: thread.start()
for number in [*range(5000), *[None] * 4]: asked.put(number)
for thread in threads: thread.join()
print(sum(told.get() for _ in range(5000)))
"""
# Width, height and frames of a film.
FILM = (176, 144, 50)
KINDS = ("NPNB", "PNB", "PB")
# What may hang, because it relies on going on after its signal; and the status then.
HANGS, STATUS_HUNG = {("pigz", "PB"), ("ffmpeg", "PB")}, 124
# What may give another output for that reason: the encoder's look-ahead signals that frames are there, and analyses
# them after its signal, inside.
DIFFERS = {("x264", "PB")}
SECONDS = "60"


def make_inputs(folder: str) -> Tuple[str, str]:
    """A text and a film, the same each time."""
    text, film = os.path.join(folder, "text"), os.path.join(folder, "film.y4m")
    with open(text, "w") as file:
        file.writelines(f"{row * row % 999983} of {row}\n" for row in range(400000))
    width, height, frames = FILM
    with open(film, "wb") as file:
        file.write(b"YUV4MPEG2 W%d H%d F25:1 C420jpeg\n" % (width, height))
        for frame in range(frames):
            picture = bytes((place * place + frame) % 256 for place in range(width * height * 3 // 2))
            file.write(b"FRAME\n" + picture)
    return text, film


def programs(folder: str) -> Dict[str, List[str]]:
    """Those of the twelve that are there, and their words."""
    text, film = make_inputs(folder)
    packed = os.path.join(folder, "packed.7z")
    of_7z = f"rm -f {packed}; 7z a -mmt4 -mx1 {packed} {text} >{os.devnull} && 7z e -so {packed}"
    found = {
        "pigz": ["pigz", "-p4", "-c", text],
        "pbzip2": ["pbzip2", "-p4", "-c", text],
        "lbzip2": ["lbzip2", "-n4", "-c", text],
        "zstd": ["zstd", "-q", "-T4", "-6", "-c", text],
        "plzip": ["plzip", "-n4", "-1", "-c", text],
        "pixz": ["pixz", "-p4", "-1", "-i", text, "-o", "/dev/stdout"],
        "xz": ["xz", "-T4", "-1", "--block-size=1MiB", "-c", text],
        "7z": ["sh", "-c", of_7z],
        "x264": ["x264", "--quiet", "--threads", "4", "--demuxer", "y4m", "--muxer", "raw", "-o", "/dev/stdout", film],
        "ffmpeg": ["ffmpeg", "-nostdin", "-v", "error", "-threads", "4", "-i", film, "-c:v", "libx264", "-threads",
                   "4", "-f", "h264", "-"],
        "sort": ["sort", "--parallel=4", "-S", "64M", text],
        "python3": [sys.executable, "-c", FOUR_THREADS],
    }
    return {name: words for name, words in found.items() if shutil.which(name)}


def ended(words: List[str]) -> "subprocess.CompletedProcess[bytes]":
    return subprocess.run(words, stdin=subprocess.DEVNULL, stdout=subprocess.PIPE, stderr=subprocess.DEVNULL)


def first_wrong(monk_run: str, name: str, words: List[str]) -> str:
    """What is wrong with the first wrong run, of two under each kind; nothing, if all are right."""
    plain = ended(words)
    for kind, seed in itertools.product(KINDS, "12"):
        done = ended([monk_run, "--kind", kind, "--wish", "any", "--seed", seed, "--seconds", SECONDS, "--", *words])
        is_known = (name, kind) in HANGS and done.returncode == STATUS_HUNG
        is_known = is_known or (name, kind) in DIFFERS and done.returncode == plain.returncode
        if not is_known and (done.returncode, done.stdout) != (plain.returncode, plain.stdout):
            return f"{name} {kind} seed {seed}: status {done.returncode}, another output or none"
    return ""
