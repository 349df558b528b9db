"""The frames of a program's functions, by its instructions (objdump), and which functions call themselves again."""
import re
import subprocess
from collections import defaultdict

HEAD = re.compile(r"[0-9a-f]+ <(.+)>:$")
PUSH = re.compile(r"\tpush\s")
DOWN = re.compile(r"\tsub\s+\$0x([0-9a-f]+),%rsp")
# A frame of many pages is touched page by page: a loop goes down to an address that is computed before it.
FAR = re.compile(r"\t(?:lea\s+-0x([0-9a-f]+)\(%rsp\),%r11|sub\s+\$0x([0-9a-f]+),%r11)")
NAMED = re.compile(r"<([^>+]+)>")
WORD = 8


class Program:
    """The functions of a program: the bytes of each frame, with what is pushed and the address to return to, and the
    functions that each calls, or whose addresses it takes."""

    def __init__(self, path):
        text = subprocess.run(["objdump", "-d", "--no-show-raw-insn", path], capture_output=True, text=True, check=True)
        self.size, self.calls = {}, defaultdict(set)
        name, lines = None, []
        for line in text.stdout.splitlines():
            if found := HEAD.match(line):
                self.add(name, lines)
                name, lines = found[1], []
            else:
                lines.append(line)
        self.add(name, lines)

    def add(self, name, lines):
        if name is None:
            return
        pushed, down, far = WORD, 0, 0
        for line in lines:
            if found := DOWN.search(line):
                down += int(found[1], 16)
            elif found := FAR.search(line):
                far += int(found[1] or found[2], 16)
                down -= 0x1000            # that of the loop
            elif not down and PUSH.search(line):
                pushed += WORD
            if found := NAMED.search(line):
                self.calls[name].add(found[1])
        self.size[name] = pushed + down + far
        self.calls[name].discard("")

    def reached(self, start):
        """What is reached by one call or more."""
        seen, todo = set(), list(self.calls.get(start, ()))
        while todo:
            it = todo.pop()
            if it in self.size and it not in seen:
                seen.add(it)
                todo += self.calls.get(it, ())
        return seen

    def again(self):
        """The functions that can come to themselves again."""
        return [name for name in self.size if name in self.reached(name)]

    def deepest(self, start, known):
        """The largest sum of frames on a way down from a function, and the way; a function that calls itself again is in
        it once."""
        if start not in known:
            known[start] = self.size[start], [start]            # for a way that comes back
            below = [self.deepest(it, known) for it in self.calls.get(start, ()) if it in self.size and it != start]
            size, way = max(below, default=(0, []))
            known[start] = self.size[start] + size, [start, *way]
        return known[start]


def show(path, functions, least):
    """Prints the large frames, of all functions or of those that these reach, and what calls itself again."""
    program = Program(path)
    roots = [name for name in program.size if any(one in name for one in functions)]
    names = set(program.size) if not functions else set(roots).union(*map(program.reached, roots))
    large = sorted((name for name in names if program.size[name] >= least), key=lambda name: -program.size[name])
    print("frames of %d bytes or more:" % least)
    for name in large:
        print("%8d  %s" % (program.size[name], name))
    print("functions that call themselves again:")
    again = [name for name in program.again() if name in names]
    for name in sorted(again, key=lambda name: -program.size[name]):
        print("%8d  %s" % (program.size[name], name))
    for root in roots:
        total, way = program.deepest(root, {})
        print("the deepest way from %s, with each function once: %d bytes" % (root, total))
        for name in way:
            if program.size[name] >= 1024:
                print("%8d  %s" % (program.size[name], name))
    return 0
