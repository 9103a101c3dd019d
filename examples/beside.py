"""Works that are done at once, each in a process of its own. `runs` and `cuts` use it."""
from concurrent.futures import ProcessPoolExecutor
from multiprocessing import get_context

WORKS = []


def do(number):
    return WORKS[number]()


class Beside:
    """Works that have begun; a process of each has all that was there as it began."""

    def __init__(self, works):
        WORKS[:] = works
        self.pool = ProcessPoolExecutor(max(1, len(works)), mp_context=get_context("fork"))
        self.answers = [self.pool.submit(do, number) for number in range(len(works))]

    def __enter__(self):
        return self

    def __exit__(self, *_):
        self.pool.shutdown()

    def all(self):
        """What they answer, in order; a fault of one is raised here."""
        return [it.result() for it in self.answers]
