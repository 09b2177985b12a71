# A page for gdb (with Python): a command that writes the state of a stopped or crashed program as a state file for `walk` and `frame`.
#
#   gdb -x scripts/state.gdb PROGRAM CORE
#   (gdb) write-state MODULE FILE
#
# MODULE is the program or library whose text is walked: its path as the process maps it, or the last part of that. The state is that of the
# selected thread at its selected frame, which has to be in MODULE. The text's addresses are counted from where MODULE is loaded; so rip,
# and each aligned word of the stack that lies in MODULE, are written less that address. All else stays as it is. Of a frame that
# waits for a call to return, rip is the address below the one where it goes on, which is in the call.
python
import os

import gdb


class WriteState(gdb.Command):
    """Write the state of the selected thread for one module.
Usage: write-state MODULE FILE"""

    REGISTERS = "rax rdx rcx rbx rsi rdi rbp rsp r8 r9 r10 r11 r12 r13 r14 r15".split()
    # A function may keep so many bytes below rsp; and no more of the stack is written than a state file may have.
    RED_ZONE, LONGEST, PAGE = 128, 1 << 22, 4096

    def __init__(self):
        super().__init__("write-state", gdb.COMMAND_DATA, gdb.COMPLETE_FILENAME)

    def invoke(self, argument, from_tty):
        words = gdb.string_to_argv(argument)
        if len(words) != 2:
            raise gdb.GdbError("usage: write-state MODULE FILE")
        start, end = self.mapped(words[0])
        frame = gdb.selected_frame()
        rip = self.register(frame, "rip") - self.waits(frame)
        if not start <= rip < end:
            raise gdb.GdbError(f"the selected frame is not in {words[0]}: select one that is, as `backtrace` shows them")
        lines = [f"REG {name} {self.register(frame, name):x}" for name in self.REGISTERS]
        lines.append(f"REG rip {rip - start:x}")
        for address, stack in self.stack(self.register(frame, "rsp")):
            values = [int.from_bytes(stack[k : k + 8], "little") for k in range(0, len(stack), 8)]
            values = [value - start if start <= value < end else value for value in values]
            lines.append(f"MEM {address:x} " + b"".join(value.to_bytes(8, "little") for value in values).hex())
        with open(words[1], "w", encoding="ascii") as file:
            file.write("\n".join(lines) + "\n")

    def register(self, frame, name):
        return int(frame.read_register(name)) % (1 << 64)

    def waits(self, frame):
        """Whether the frame waits for a call to return."""
        newer = frame.newer()
        while newer is not None and newer.type() == gdb.INLINE_FRAME:
            newer = newer.newer()
        return newer is not None and newer.type() != gdb.SIGTRAMP_FRAME

    def mapped(self, module):
        """The first address of a module, and the one behind its last."""
        found = {}
        for line in gdb.execute("info proc mappings", to_string=True).splitlines():
            fields = line.split(None, 4)
            if len(fields) != 5 or not fields[0].startswith("0x"):
                continue
            # The rights stand between the offset and the path, but not of a core.
            path = fields[4][fields[4].find("/") :]
            if path == os.path.realpath(module) or path.endswith("/" + module):
                found.setdefault(path, []).append((int(fields[0], 16), int(fields[1], 16)))
        if len(found) != 1:
            raise gdb.GdbError(f"{len(found)} modules of the process are {module}: `info proc mappings` shows their paths")
        ranges, = found.values()
        return min(start for start, _ in ranges), max(end for _, end in ranges)

    def stack(self, rsp):
        """The stack from its top on, as far as it can be read, page by page."""
        address = (rsp - self.RED_ZONE) & ~7
        last = address + self.LONGEST
        while address < last:
            size = self.PAGE - address % self.PAGE
            try:
                yield address, bytes(gdb.selected_inferior().read_memory(address, size))
            except gdb.MemoryError:
                return
            address += size


WriteState()
end
