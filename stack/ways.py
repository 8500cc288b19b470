"""The most stack that a function can take: its own, and that of what it calls, along every way down."""


class Refused(Exception):
    """The code has something of which no number of bytes can be told."""


class Function:
    """A function as it was read: whether others can call it, the most bytes it takes by itself, and its calls: how many bytes are
    taken at each, and the name of what is called."""

    def __init__(self, name, is_exported):
        self.name, self.is_exported = name, is_exported
        self.most, self.calls = 0, []


class Ways:
    """The ways down from each function. Of a function outside only its return address is known."""

    def __init__(self, functions, return_address):
        self.functions, self.return_address = functions, return_address
        self.outside = set()
        self.known = {}

    def deepest(self, name, above=()):
        """The bytes of the deepest way, and the functions on it."""
        if name in above:
            raise Refused(f"recursion: {' calls '.join([*above, name])}")
        if name not in self.functions:
            self.outside.add(name)
            return self.return_address, ()
        if name not in self.known:
            function = self.functions[name]
            best = function.most, (name,)
            for taken, callee in function.calls:
                below, way = self.deepest(callee, (*above, name))
                best = max(best, (taken + below, (name, *way)))
            self.known[name] = best
        return self.known[name]

    def exported(self):
        """Each function that others can call: its name, its bytes, and the deepest way."""
        return [(name, *self.deepest(name)) for name, function in self.functions.items() if function.is_exported]
