"""A program with its own recorder, which waits for ever and is ended: hangs.py FILE"""
import os
import sys

sys.dont_write_bytecode = True
sys.path.insert(0, os.path.join(os.path.dirname(os.path.abspath(__file__)), "../python"))
import monk_log

recorder = monk_log.Recorder()
lock = recorder.lock()
condition = recorder.condition(lock)
recorder.end_after(0.3, sys.argv[1])
with lock:
    condition.wait()
