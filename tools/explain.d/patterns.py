"""Which patterns of a query that runs can never find anything, since no edge type of theirs leads where they go.

What a set may hold is taken too widely rather than too narrowly: from all statements of the query that set it.
"""


def of_script(names, text, trees):
    """What is said of the patterns of all queries of a script, in order."""
    said = []
    for it in trees:
        tree = it.parts[0]
        if getattr(tree, "name", None) in ("Query", "Interpret"):
            said += Patterns(names, text, tree).lines()
    return said


class Patterns:
    """The patterns of a query."""

    def __init__(self, names, text, query):
        self.names, self.text, self.query = names, text, query
        self.vertices = {name for name, it in names.types.items() if it["kind"] == "vertex"}
        self.sets = {}
        before = None
        while before != self.sets:
            before = {name: set(it) for name, it in self.sets.items()}
            for plain in query.all("Plain"):
                self.add(plain)

    def add(self, plain):
        """Adds what a statement may put into its set."""
        made = next((it for it in plain.trees() if it.name in ("Select", "SetRhs")), None)
        if made is not None:
            held = self.of_select(made) if made.name == "Select" else self.of_written(made)
            self.sets.setdefault(self.names.word(plain.start), set()).update(held)

    def of_name(self, name):
        """The types of a vertex type or of a set."""
        return {name} if name in self.vertices else self.sets.get(name, set())

    def of_written(self, tree):
        found = set()
        for it in tree.trees():
            for start in it.all("Start"):
                name = self.names.word(start.start)
                found |= self.of_name(name) if name in self.vertices or name in self.sets else self.vertices
        return found.union(*(self.of_name(it) for it in self.names.words(tree)))

    def of_select(self, select):
        words = self.names.words(select)
        source = self.of_name(words[3])
        if words[4:6] == [":", words[1]] or not select.trees("Hop", "Path"):
            return source
        end = select.trees("Hop", "Path")[0]
        targets = end.all("Types")[-1:] if end.name == "Path" else self.targets_of_hop(end)
        return self.targets(targets[0]) if targets else self.vertices

    def targets_of_hop(self, hop):
        arrow = next(it for it in hop.parts if isinstance(it, int) and self.names.word(it) == "->")
        return [it for it in hop.trees("Types") if it.start > arrow]

    def targets(self, tree):
        named = set(self.names.words(tree))
        return self.vertices if {it.upper() for it in named} & {"ANY", "_"} else named & self.vertices

    def lines(self):
        said = []
        for select in self.query.all("Select"):
            for walk in select.trees("Hop", "Path"):
                now = self.of_name(self.names.words(select)[3])
                for step in [walk] if walk.name == "Hop" else walk.trees("Step"):
                    leads = self.leads(step)
                    wanted = step.trees("Types") if step.name == "Step" else self.targets_of_hop(step)
                    wanted = self.targets(wanted[0]) if wanted else self.vertices
                    reached = {end for _, start, end in leads if start in now and end in wanted}
                    if now and leads and not reached:
                        said += self.said(step, leads, now, wanted)
                        break
                    now = reached
        return said

    def leads(self, step):
        """How the edge types of a step lead, as it goes along them: of each way that in words, and the types of its ends."""
        found = []
        if step.name == "Step":
            for it in step.trees("Dir"):
                words = self.names.words(it)
                name = next(word for word in words if word not in "<>")
                found += self.ends_of(name, "".join(words), back="<" in words, both=len(words) == 1)
            return found
        arrow = self.targets_of_hop(step)
        for it in step.trees("Types"):
            for name in self.names.words(it) if it not in arrow else []:
                found += self.ends_of(name, name, back=False, both=self.names.types.get(name, {}).get("kind") == "undirected edge")
        return found

    def ends_of(self, name, written, back, both):
        if "ends" not in self.names.types.get(name, {}):
            return []
        start, end = self.names.types[name]["ends"]
        if both:
            way = f"{written} joins {start} and {end}"
            return [(way, start, end), (way, end, start)]
        start, end = (end, start) if back else (start, end)
        return [(f"{written} leads from {start} to {end}", start, end)]

    def said(self, step, leads, now, wanted):
        first, last = self.names.tokens[step.start], self.names.tokens[step.end - 1]
        begin, end = first[2], last[2] + len(last[1])
        ways = " and ".join(list(dict.fromkeys(way for way, _, _ in leads))[:4])
        to = f" to {' or '.join(sorted(wanted))}" if wanted != self.vertices else ""
        lines = [f"{self.text.place(begin)}: this finds nothing: no edge of it leads from {' or '.join(sorted(now))}{to}; {ways}"]
        return lines + self.text.shown(begin, end)
