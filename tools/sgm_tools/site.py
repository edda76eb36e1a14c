"""Where the frame of a site lies in a map: an offset in metres and a coordinate system, in a small
file, site.json: {"offset": [east, north], "epsg": code}. Each of the two may be absent.

A calibration counts micrometres from a point of the site; its offset is what that point has for
coordinates in the map.
"""

from __future__ import annotations

import argparse
import dataclasses
import decimal
import json
import re
from collections.abc import Callable

from sgm_tools import exact
from sgm_tools.files import read_bytes
from sgm_tools.running import Wrong
from sgm_tools.words import metres_word

MOST_METRES = 10**8
LEAST_CODE, MOST_CODE = 1024, 1 << 20


@dataclasses.dataclass
class Site:
    """East and north of the frame's origin in whole micrometres, and the EPSG's code or None."""

    east: int = 0
    north: int = 0
    epsg: int | None = None

    def text(self) -> str:
        """The text of site.json."""
        parts = []
        if self.east or self.north:
            offset = ", ".join(exact.decimal(it, 6) for it in (self.east, self.north))
            parts.append(f'"offset": [{offset}]')
        if self.epsg is not None:
            parts.append(f'"epsg": {self.epsg}')
        return "{" + ", ".join(parts) + "}\n"


def micrometres(value: object) -> int | None:
    """Whole micrometres of a decimal number of metres; None where it isn't one."""
    if isinstance(value, bool) or not isinstance(value, (int, decimal.Decimal)):
        return None
    metres = decimal.Decimal(value)
    if not abs(metres) <= MOST_METRES:
        return None
    return int((metres * 1000000).to_integral_value(decimal.ROUND_HALF_EVEN))


def is_code(value: object) -> bool:
    if isinstance(value, bool) or not isinstance(value, int):
        return False
    return LEAST_CODE <= value <= MOST_CODE


def read_site(name: str) -> Site:
    text = read_bytes(name)
    try:
        top = json.loads(text.decode("utf-8"), parse_float=decimal.Decimal)
    except (ValueError, RecursionError) as error:
        raise Wrong(f"{name}: not JSON: {error}")
    complaint = f"{name}: not a site.json with offset and epsg"
    if not isinstance(top, dict) or set(top) - {"offset", "epsg"}:
        raise Wrong(complaint)
    offset, epsg = top.get("offset", [0, 0]), top.get("epsg")
    if not isinstance(offset, list) or len(offset) != 2 or not (epsg is None or is_code(epsg)):
        raise Wrong(complaint)
    east, north = map(micrometres, offset)
    if east is None or north is None:
        raise Wrong(complaint)
    return Site(east, north, epsg)


# Words


def micrometres_word(word: str) -> int:
    """A number of metres: whole micrometres."""
    found = micrometres(metres_word(word))
    if found is None:
        raise argparse.ArgumentTypeError(f"{word} is more than {MOST_METRES} metres")
    return found


def code_word(word: str) -> int:
    found = re.fullmatch("(?i:epsg:)?([0-9]{4,7})", word)
    if not found or not is_code(int(found[1])):
        raise argparse.ArgumentTypeError(f"{word} isn't a code of EPSG")
    return int(found[1])


def add_words(option: Callable[..., object], site: str) -> None:
    """The options that say where the site lies; `site` is the help of --site."""
    option("--site", metavar="FILE.json", help=site)
    offset = "what the frame's origin has for coordinates in the map, in metres (0 0)"
    option("--offset", nargs=2, type=micrometres_word, metavar=("EAST", "NORTH"), help=offset)
    epsg = "the map's coordinate system, by its code of EPSG"
    option("--epsg", type=code_word, metavar="CODE", help=epsg)


def site_of(words: argparse.Namespace) -> Site:
    """The site that the words give: that of --site, but for what --offset and --epsg say."""
    site = read_site(words.site) if words.site is not None else Site()
    if words.offset is not None:
        site.east, site.north = words.offset
    if words.epsg is not None:
        site.epsg = words.epsg
    return site
