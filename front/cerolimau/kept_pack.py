"""A raw pack of the server, kept aside."""
from .ends import CLOSED
from .raw_pack import RawPackReader
from .streams import Cut, Refused, Spool


class KeptPack:
    """The objects of a raw pack of the server, kept aside in its order. `rows` has their kinds, places and sizes as they come."""

    def __init__(self, source):
        self._spool = Spool()
        self.rows = []
        try:
            self._pack = RawPackReader(source)
        except Cut:
            raise Refused(CLOSED) from None
        self.count = self._pack.count

    def read(self):
        """Reads the pack to its end, and gives each object's kind and body on the way."""
        try:
            for kind, body in self._pack:
                place = self._spool.size
                self._spool.add(body)
                self.rows.append((kind, place, len(body)))
                yield kind, body
        except Cut:
            raise Refused(CLOSED + " inside the pack") from None

    def body(self, row):
        return self._spool.read(row[1], row[2])
