"""The three services: their names, an order that they handle together, and one of them as a process."""
from .faults import check
from .processes import Process, program

SERVICES = ("purchasing", "warehouse", "billing")
KIND = {"purchasing": "order", "warehouse": "stock", "billing": "account"}  # the kind of a service's entities
# the worked order: the command that each service is given, what is shown then, and how many rows the journals have
COMMANDS = {"warehouse": "receive bolt 10", "billing": "limit ann 500", "purchasing": "place o1 bolt 3 ann 500"}
SHOWN = {"order/o1": "order/o1 confirmed stock/bolt 3 confirmed account/ann 500 confirmed",
         "stock/bolt": "stock/bolt on_hand 7 held 0 shipped 3 received 10",
         "account/ann": "account/ann limit 500 billed 500 held 0"}
# what is printed above the line of a fault of a service's file
REASONS = {"fault 1 Failed": "the file can't be opened, is damaged, or another program has it",
           "fault 3 WrongFile": "the file is of another service or version, or no database"}
ENTITY = dict(zip(SERVICES, SHOWN))
ROWS = 3


def service_of(entity):
    return next(name for name, kind in KIND.items() if entity.startswith(f"{kind}/"))


class Service(Process):
    """An outbox-service."""

    def __init__(self, name, port, *words, **how):
        super().__init__(program("outbox_service"), "--service", name, "--port", port, *words, name=name, **how)

    def connects(self):
        """Both connections are open: the first line that it prints."""
        check(f"the first line of {self.name}", self.line(), "connected 2")
