"""The functions of a program, by its symbol table."""
import bisect
import collections

# `words` are the addresses and words of its instructions, and of what else stands between them.
Function = collections.namedtuple("Function", "name start words")


def starts(program):
    """Where a function begins, by its name: at a symbol, but for labels inside a function that has a size; and where code has no
    symbol in front, at its address."""
    sized = [symbol for symbol in program.symbols if symbol.is_function and symbol.size]
    ends = [symbol.start for symbol in sized]
    found = {start: f"0x{start:x}" for start, _ in program.areas}
    for symbol in program.symbols:
        before = bisect.bisect_left(ends, symbol.start)
        inside = before and symbol.start < sized[before - 1].start + sized[before - 1].size
        if symbol.is_function or not inside:
            found[symbol.start] = symbol.name
    return found


class Functions:
    def __init__(self, program):
        named = starts(program)
        self.rows, self.by_address = [], {}
        for address, word in program.words:
            if address in named or not self.rows:
                self.rows.append(Function(named.get(address, f"0x{address:x}"), address, []))
            self.rows[-1].words.append((address, word))
            self.by_address[address] = self.rows[-1]

    def of(self, address):
        """The function that an address is in, or None outside of the program's code."""
        return self.by_address.get(address)

    def starts_of(self, addresses):
        """The starts of all functions that these addresses are in."""
        return {self.by_address[address].start for address in addresses if address in self.by_address}
