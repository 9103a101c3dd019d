"""Random traces with directories and commands on names, for replays.py: those of bench/random-traces, and these between them."""


def with_names(maker):
    class NamesMaker(maker):
        def __init__(self, seed):
            super().__init__(seed)
            pick = self.random.choice
            self.dirs, opening = [""], []
            for k in range(self.random.randint(0, 3)):
                path = f"{pick(self.dirs)}d{k}"
                opening.append(f"dir {path}")
                self.dirs.append(path + "/")
            for line in self.lines[4:]:
                _, name, content = line.split(" ")
                opening.append(f"file {pick(self.dirs)}{name} {content}")
            self.lines = self.lines[:4] + opening
            self.called = [f"f{k}" for k in range(self.files)] + ["d0", "d1", "n0", "n1", "n2"]
            # ids of what is made later are named too
            self.files = len(opening) + 3

        def path(self):
            """A name that is mostly there, or could be."""
            return self.random.choice(self.dirs) + self.random.choice(self.called)

        def directory(self):
            return self.random.choice(self.dirs).rstrip("/") or "/"

        def command(self, client):
            if self.random.random() < 0.6:
                return super().command(client)
            kinds = ("open", "rewrite", "make", "mkdir", "remove", "rmdir", "rename", "list", "look")
            kind = self.random.choices(kinds, (6, 3, 4, 2, 3, 2, 5, 3, 3))[0]
            if kind == "rename":
                return f"rename {self.path()} {self.path()}"
            if kind == "list" or kind == "look" and self.random.random() < 0.4:
                return f"{kind} {self.directory()}"
            return f"{kind} {self.path()}"

    return NamesMaker
