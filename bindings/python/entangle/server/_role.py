"""What a process of a server does: all of it, or its part of a fleet."""

from __future__ import annotations

import importlib
from dataclasses import dataclass, replace
from typing import Any, Callable, Optional

from ..stores import StoreFailed
from ._declared import ServiceFile
from ._faults import FileFault, FileRefused


@dataclass(frozen=True)
class Role:
    """A front has no room; the process of a room takes what fronts have asked. One that is neither does both, and
    stands by if it is to. The room of a file without rooms has no name."""

    is_front: bool = False
    room: Optional[str] = None
    stands_by: bool = False

    @property
    def serves_clients(self) -> bool:
        return self.room is None

    def check(self, file: ServiceFile) -> None:
        """Raises FileRefused if a file can't be served so."""
        fault = self._fault(file)
        if fault is not None:
            raise FileRefused((FileFault(file.path, 1, fault),))

    def _fault(self, file: ServiceFile) -> Optional[str]:
        if not self.is_front and self.room is None:
            named = ", ".join(file.rooms)
            return f"the file has the rooms {named}: start it with --front, and with --room ROOM" if named else None
        if file.store.postgres is None:
            return "fronts and rooms have their inbox in PostgreSQL: store.postgres"
        if self.room and self.room not in file.rooms:
            return f"the file has no room {self.room}: it has {', '.join(file.rooms) or 'one, without a name'}"
        if self.room == "" and file.rooms:
            return f"which room: {', '.join(file.rooms)}"
        return None


def of_room(file: ServiceFile, room: str) -> ServiceFile:
    """What a file declares for one room: its store is in the schema of the room's name."""
    if not room:
        return file
    conninfo: Any = importlib.import_module("psycopg").conninfo
    given = conninfo.conninfo_to_dict(file.store.postgres)
    options = f"{given.get('options', '')} -c search_path={room}".strip()
    dsn = conninfo.make_conninfo(file.store.postgres, options=options)
    return replace(file, store=replace(file.store, postgres=dsn))


def made_schema(file: ServiceFile, role: Role) -> Callable[[], None]:
    """Makes the schema of a room if it isn't there. Raises StoreFailed."""

    def make() -> None:
        engine: Any = importlib.import_module("psycopg")
        if not role.room:
            return
        try:
            with engine.connect(file.store.postgres, autocommit=True, connect_timeout=5) as connection:
                found = connection.execute("SELECT 1 FROM pg_namespace WHERE nspname = %s", (role.room,)).fetchone()
                if found is None:
                    connection.execute(f'CREATE SCHEMA IF NOT EXISTS "{role.room}"')
        except engine.errors.UniqueViolation:  # another process makes it now
            return
        except engine.Error as error:
            raise StoreFailed(str(error).strip()) from error

    return make
