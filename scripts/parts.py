"""The parts of a test: what each counts, and the faults that are known."""


class Failure(Exception):
    """What keeps a part from being run to its end."""


class Part:
    """Counts runs, and what they did otherwise."""

    def __init__(self, name):
        self.name, self.runs, self.wrong, self.figures = name, 0, [], []

    def check(self, holds, what):
        self.runs += 1
        if not holds:
            self.wrong.append(what)

    def figure(self, text):
        """A figure to be printed behind the part's runs."""
        self.figures.append(text)

    def end(self, is_known=False):
        """Prints the part's line. Tells whether it is as it has to be: a known fault shows."""
        good = self.runs - len(self.wrong)
        figures = "; " + ", ".join(self.figures) if self.figures else ""
        print(f"{self.word(is_known)} {self.name}: {good} of {self.runs}{figures}", flush=True)
        for what in self.wrong[:10]:
            print(f"    {what}", flush=True)
        return bool(self.wrong) == is_known

    def word(self, is_known):
        if is_known:
            return "known fault," if self.wrong else "FAILED, no fault, and it is named as known:"
        return "FAILED" if self.wrong else "ok"


def run_part(name, body, known):
    """Runs a part, whose body counts its runs. Tells whether it is as it has to be."""
    part = Part(name)
    try:
        body(part)
    except Failure as failure:
        print(f"FAILED {name}: {failure}", flush=True)
        return False
    return part.end(name in known)


def run_parts(parts, known):
    """The status of a test of these parts, by their names: 0 if each is as it has to be."""
    done = [run_part(name, body, known) for name, body in parts.items()]
    return 0 if all(done) else 1
