"""Two readers and a writer. A reader that was let in lets in the next one, by a chain of signals."""

from __future__ import annotations

from monk import Calls, Scene, compare, enter, leave, signal, wait


def readers_and_writer() -> Scene:
    readers, is_writing = 0, False

    def reader() -> Calls:
        nonlocal readers
        yield enter()
        while is_writing:
            yield wait("read", lambda: not is_writing)
        readers += 1
        yield signal("read")
        yield leave()
        yield enter()
        readers -= 1
        if readers == 0:
            yield signal("write")
        yield leave()

    def writer() -> Calls:
        nonlocal is_writing
        yield enter()
        while is_writing or readers:
            yield wait("write", lambda: not is_writing and readers == 0)
        is_writing = True
        yield leave()
        yield enter()
        is_writing = False
        yield signal("read")
        yield leave()

    return Scene([reader, reader, writer], invariant=lambda: not (is_writing and readers))


if __name__ == "__main__":
    print(compare(readers_and_writer))
