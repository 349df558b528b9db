"""How many messages a client takes until it would wait: a machine takes the events of a schedule while it
is made."""

from . import wire
from .machine import Machine
from .words import STEPS


class Waits:
    """Follows the bytes of a schedule; `events` are those of a client until it would wait or has no
    message left."""

    def __init__(self, files, size):
        self.machine, self.played = Machine([wire.read(data) for data in files], size), 0

    def events(self, data, code):
        for one in data[self.played:]:
            self.take(one)
        client, made = self.machine.world.clients[code - 1], bytearray()
        while client.taken < len(client.messages) and not self.waits(client):
            self.take(code)
            made.append(code)
        self.played = len(data) + len(made)
        return made

    def waits(self, client):
        """Its next message is an Await that would be refused."""
        kind = client.messages[client.taken]["kind"]
        return kind == "await" and client.delivered is None and not self.machine.world.over and not client.closed

    def take(self, code):
        if code in STEPS:
            self.machine.step(STEPS[code])
        else:
            self.machine.step("c", code)
