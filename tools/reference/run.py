"""The run of a script: the turns of its schedule, in order."""
from due import Actor, Wait
from state import State

FULL = 2_000_000


class Full(Exception):
    """A turn found an entry due, and the history full."""


class Machine:
    def __init__(self, script):
        self.script, self.state, self.history = script, State(script), []
        self.ended = [0] * len(script.actors)           # how many operations of each actor have ended
        self.running = [None] * len(script.actors)      # the generator of each actor's operation
        self.waits = []                                 # (entries before it, actor, Wait) of turns that waited

    def is_idle(self, actor):
        return self.ended[actor] == len(self.script.actors[actor])

    def due(self, actor):
        """What is due to an actor that has an operation left, and whether its operation ends with that. Ask it once."""
        if self.running[actor] is None:
            word, *operands = self.script.actors[actor][self.ended[actor]]
            self.running[actor] = getattr(Actor(self.state, actor), word)(*operands)
        try:
            return next(self.running[actor]), False
        except StopIteration as stop:
            return stop.value, True

    def step(self, actor):
        """One turn: the entry that it added, a Wait, or none where nothing is left to do."""
        if self.is_idle(actor):
            return None
        due, ends = self.due(actor)
        if isinstance(due, Wait):
            self.waits.append((len(self.history), actor, due))
            return due
        if len(self.history) == FULL:
            raise Full
        self.history.append((actor, due))
        self.state.apply(actor, due)
        if ends:
            self.ended[actor] += 1
            self.running[actor] = None
        return due

    def turns(self, actor, count):
        """A turn that waits changes nothing, so the turns after it are not made."""
        for _ in range(count):
            due = self.step(actor)
            if due is None or isinstance(due, Wait):
                return

    def drain(self):
        actors = range(len(self.ended))
        while not all(map(self.is_idle, actors)):
            for actor in actors:
                self.turns(actor, FULL)

    def replay(self):
        """Makes the schedule's turns, and says whether the history was full."""
        try:
            for word, *numbers in self.script.schedule:
                self.drain() if word == 'drain' else self.turns(*numbers)
        except Full:
            return True
        return False
