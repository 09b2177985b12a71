# A page for gdb (with Python): a command that prints the frames of all threads, one a line, for scripts/expected_stacks.py.
#
#   gdb -batch -nx -x scripts/frames.gdb -ex write-frames PROGRAM CORE
#
# `thread NUMBER` begins a thread by the number that the system gave it; then comes a line for each frame, the innermost first: its kind, its
# address, and its function as the linker names it, its path and its line, which are `-` where gdb has none, all apart by tabs.
python
import gdb

KINDS = {gdb.NORMAL_FRAME: "normal", gdb.INLINE_FRAME: "inline", gdb.SIGTRAMP_FRAME: "signal", gdb.TAILCALL_FRAME: "tail"}


class WriteFrames(gdb.Command):
    """Print the frames of all threads.
Usage: write-frames [MOST]"""

    def __init__(self):
        super().__init__("write-frames", gdb.COMMAND_DATA)

    def invoke(self, argument, from_tty):
        most = int(argument) if argument else 1 << 30
        for thread in gdb.selected_inferior().threads():
            thread.switch()
            print(f"thread {thread.ptid[1] or thread.ptid[0]}")
            frame = gdb.newest_frame()
            while frame is not None and most > 0:
                self.show(frame)
                most -= 1
                try:
                    frame = frame.older()
                except gdb.error:
                    frame = None

    def show(self, frame):
        """The line of a frame."""
        function = frame.function()
        place = frame.find_sal()
        path, line = (place.symtab.fullname(), place.line) if place.symtab else ("-", "-")
        print("\t".join([KINDS.get(frame.type(), "other"), f"{frame.pc():x}", function.linkage_name if function else "-", path, str(line)]))


WriteFrames()
end
