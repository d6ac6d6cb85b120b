"""The executor of SCOOP separate blocks, called from Python by way of libqs.so, which `bindings/build` makes.

    import qs
    library = qs.Library("libqs.so")
    text, status = library.play(script, "--mode", "static")

A call takes a script, as text or bytes, and the words that would stand on the program's line after its own; it answers
the bytes that the program would write on its standard output, and its exit status. `qs run` has no call here.
"""

import ctypes

WORDS = ("check", "graph", "rules", "play", "syncs", "outcomes", "ask", "fronts", "estimate")


class Library:
    """The calls of a shared library; several threads may use one."""

    def __init__(self, path):
        self._library = ctypes.CDLL(path)
        for word in WORDS:
            call = getattr(self._library, f"qs_{word}")
            text = (ctypes.c_char_p, ctypes.c_size_t)
            call.argtypes = (*text, *text, ctypes.c_void_p, ctypes.c_size_t, ctypes.POINTER(ctypes.c_uint8))
            call.restype = ctypes.c_size_t

    def call(self, word, script, *words, room=1 << 14):
        """What `qs WORD` writes for a script and further words, and its status."""
        if any("\n" in it for it in words):
            raise ValueError("a word has no line feed in it")
        script = script.encode() if isinstance(script, str) else script
        line = "\n".join(words).encode()
        call, status = getattr(self._library, f"qs_{word}"), ctypes.c_uint8()
        while True:
            text = ctypes.create_string_buffer(room)
            length = call(script, len(script), line, len(line), text, room, ctypes.byref(status))
            if length <= room:
                return text.raw[:length], status.value
            room = length

    def check(self, script, *words):
        """How many objects, clients and blocks a script has, its load and its weight."""
        return self.call("check", script, *words)

    def graph(self, script, *words):
        """The control-flow graph of each block."""
        return self.call("graph", script, *words)

    def rules(self, script, *words):
        """The report of a run by the plain rules."""
        return self.call("rules", script, *words)

    def play(self, script, *words):
        """The report of a run in the optimised machine."""
        return self.call("play", script, *words)

    def syncs(self, script, *words):
        """How many synchronisations each mode of coalescing sends, block by block."""
        return self.call("syncs", script, *words)

    def outcomes(self, script, *words):
        """All that a script can come to."""
        return self.call("outcomes", script, *words)

    def ask(self, script, *words):
        """The answer to a question about all that a script can come to."""
        return self.call("ask", script, *words)

    def fronts(self, script, *words):
        """Where so many blocks can lead."""
        return self.call("fronts", script, *words)

    def estimate(self, script, *words):
        """How large a search can be."""
        return self.call("estimate", script, *words)
