# A page for gdb (with Python): a command that prints the functions at the addresses of the FUNC records of a text, for scripts/cases/supplements.
#
#   gdb -batch -nx -x scripts/functions.gdb -ex 'write-functions TEXT' PROGRAM
#
# For each record there is a line with its address and the name that gdb has for the function there: as the linker names it, else without its
# parameters. Where gdb has a name of its own, as for lambdas, it is the record's. The program's base is 0.
python
import re

import gdb


class WriteFunctions(gdb.Command):
    """Print the functions at the addresses of the FUNC records of a symbol file.
Usage: write-functions TEXT"""

    def __init__(self):
        super().__init__("write-functions", gdb.COMMAND_DATA)

    def invoke(self, argument, from_tty):
        with open(argument, encoding="utf-8") as text:
            for address, name in re.findall(r"(?m)^FUNC (?:m )?(\w+) \w+ 0 (.*)$", text.read()):
                print(address, self.name_at(int(address, 16), name))

    def name_at(self, address, shown):
        """The name of the function whose block has the address, copies that are inlined there apart."""
        block, function = gdb.block_for_pc(address), None
        while block is not None and not block.is_global and not block.is_static:
            block, function = block.superblock, block.function or function
        name = function.linkage_name if function else "-"
        if name.startswith("_Z"):
            return name
        return shown if "{" in name else re.sub(r"\((?!anonymous\)).*", "", name.replace("(anonymous namespace)", "(anonymous)"))


WriteFunctions()
end
