"""A store, with a look at what goes through it."""

from __future__ import annotations

import time
from typing import Any, Callable, Optional, Sequence, Union

from .._groups import Group
from ..stores import Loaded, Outcome, PostgresStore, Ready, SqliteStore, Table, Waiter, nobody_ends
from ._metrics import Histogram

AnyStore = Union[SqliteStore, PostgresStore]


class Ledger:
    """A store whose transactions are told to its reader, once they stand. All other calls are those of the store."""

    def __init__(self, store: AnyStore, transactions: Histogram) -> None:
        self.store = store
        self.transactions = transactions
        self.loaded: Optional[Loaded] = None
        # who ended when the store was loaded, since they can't wait any more
        self.aside: Sequence[Outcome] = ()
        self.on_write: Callable[[Sequence[Group], Sequence[Outcome], Sequence[Waiter]], None] = lambda *_: None

    def __getattr__(self, name: str) -> Any:
        return getattr(self.store, name)

    def load(self, tables: Sequence[Table], ready: Ready = nobody_ends) -> Loaded:
        self.loaded = self.store.load(tables, self._noting(ready))
        return self.loaded

    def reload(self, ready: Ready = nobody_ends) -> Loaded:
        loaded = self.store.reload(self._noting(ready))
        self.on_write((), self.aside, ())
        return loaded

    def _noting(self, ready: Ready) -> Ready:
        """Does what `ready` does, and notes whom it ends."""

        def noting(loaded: Loaded) -> Sequence[Outcome]:
            self.aside = ready(loaded)
            return self.aside

        return noting

    def apply(self, groups: Sequence[Group], ended: Sequence[Outcome], waiting: Sequence[Waiter], **rest: int) -> None:
        begun = time.monotonic()
        self.store.apply(groups, ended, waiting, **rest)
        self.transactions.note(time.monotonic() - begun)
        self.on_write(groups, ended, waiting)
