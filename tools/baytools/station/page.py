"""The page of a station."""
import socket

from baytools.common.paths import DATA
from baytools.common.texts import quantity
from baytools.panel import web

from .servers import Station


class StationPages(web.Site):
    """Shows and operates nothing."""

    def __init__(self, port: int, station: Station) -> None:
        files = (DATA / 'page.css', DATA / 'shown.js', DATA / 'station.css', DATA / 'station.js')
        super().__init__(port, station, DATA / 'station.html', files)
        self.count = len(station.bays)

    def parts(self) -> dict[str, str]:
        return {**super().parts(), 'HOST': socket.gethostname(),
                'COUNT': quantity(self.count, 'bay')}
