"""What is loaded and asked: a hub with its marts and point-in-time table, and paths with their marts and bridges."""
import pathlib
from typing import Callable, NamedTuple

import path_windows
import windows
from model import Model
from path_model import PathModel

HERE = pathlib.Path(__file__).resolve().parent


class Subject(NamedTuple):
    """What is loaded, and what is asked of it, in the order in which it is asked."""

    # what a size counts
    unit: str
    # makes the folder of so many windows of a size
    write: Callable
    # says by the extracts alone what each query has to answer
    model: type
    # the folder with PostgreSQL's texts: `postgres_QUERY.sql`, and what creates the tables and loads a window
    scripts: pathlib.Path
    # our words of each query, before the date
    words: dict
    # how a query is shown
    shown: dict
    # the queries that write what `snapshot` stored
    stored: tuple

    def marts(self):
        return [query for query in self.shown if self.words[query][0] == "mart"]


NOTHING = {"nothing": ["windows"]}

HUB = Subject(
    unit="customers",
    write=windows.write,
    model=Model,
    scripts=HERE,
    words=NOTHING | {"hub": ["mart", "hub:customer"], "customers": ["mart", "feed:customers"], "accounts": ["mart", "feed:accounts"],
                     "phones": ["mart", "feed:phones"], "snapshot": ["snapshot"], "pit": ["pit", "customer"]},
    shown={"hub": "`hub:customer`", "customers": "`feed:customers`", "accounts": "`feed:accounts`", "phones": "`feed:phones`",
           "snapshot": "snapshot", "pit": "`pit customer`"},
    stored=("pit",),
)

PATHS = Subject(
    unit="lines",
    write=path_windows.write,
    model=PathModel,
    scripts=HERE / "paths",
    words=NOTHING | {"sold": ["mart", "path:sold"], "served": ["mart", "path:served"], "snapshot": ["snapshot"],
                     "bridge_sold": ["bridge", "sold"], "bridge_served": ["bridge", "served"]},
    shown={"sold": "`path:sold`", "served": "`path:served`", "snapshot": "snapshot of bridges", "bridge_sold": "`bridge sold`",
           "bridge_served": "`bridge served`"},
    stored=("bridge_sold", "bridge_served"),
)

SUBJECTS = {"hub": HUB, "paths": PATHS}
