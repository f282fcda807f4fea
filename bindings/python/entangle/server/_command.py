"""The command entangle-server."""

from __future__ import annotations

import argparse
import asyncio
import sys
from dataclasses import replace
from pathlib import Path
from typing import Optional, Sequence

from .._errors import Error
from ..stores import StoreError
from ._declared import ServiceFile
from ._faults import FileFault, FileRefused
from ._log import Log
from ._reading import read_file
from ._role import Role, of_room
from ._scripts import label_of
from ._trial import not_restorable, try_file

_ABOUT = "Serves the tables and requests that a file declares. docs/SERVER.md has the file line by line."


def checked(path: Path) -> ServiceFile:
    """What a file declares, once its scripts were tried. Raises FileRefused."""
    file = read_file(path)
    if file.page is not None and not file.page.is_file():
        raise FileRefused((FileFault(path, 1, f"the page {file.page} isn't there"),))
    try_file(file)
    return file


def check(path: Path) -> int:
    """Tells each fault of a file, and who waits in its store and couldn't wait any more; the status."""
    file = checked(path)
    if file.tokens is not None:
        from ._access import read_tokens

        read_tokens(file.tokens)
    from ._server import store_of

    if file.store.sqlite is not None and not file.store.sqlite.exists():
        print(f"{path}: {len(file.tables)} tables, {len(file.requests)} requests; no store yet")
        return 0
    waiters = []
    for room in file.rooms or ("",):
        store = store_of(of_room(file, room))
        try:
            waiters += store.waiters()
        except StoreError as error:
            print(f"{path}: the store can't be read: {error}", file=sys.stderr)
            return 1
        finally:
            store.close()
    lost = list(not_restorable(file, iter(waiters)))
    for waiter, why in lost:
        label = label_of(waiter.script)
        name = label.request if label else "no request of a server"
        print(
            f"{path}: ticket {waiter.ticket.number} of the store, {name}, can't wait any more: {why}", file=sys.stderr
        )
    print(f"{path}: {len(file.tables)} tables, {len(file.requests)} requests; {len(waiters)} scripts wait in the store")
    return 1 if lost and not file.store.sets_aside else 0


async def serve(file: ServiceFile, role: Role) -> int:
    """Serves a file, as much of it as the role says; the status with which the process ends."""
    from ._server import Server

    log = Log()
    log.take_up()
    try:
        return await Server(file, log, role).run()
    finally:
        log.close()


def _on_ports(file: ServiceFile, port: Optional[int], inner: Optional[int]) -> ServiceFile:
    """A file with ports that the command line names."""
    public = file.public if port is None else replace(file.public, port=port)
    return replace(file, public=public, inner=file.inner if inner is None else replace(file.inner, port=inner))


def main(words: Optional[Sequence[str]] = None) -> int:
    """Runs the command with these words, or those of the command line."""
    parser = argparse.ArgumentParser(prog="entangle-server", description=_ABOUT)
    parser.add_argument("file", type=Path, metavar="FILE")
    parser.add_argument("--check", action="store_true", help="tell each fault with its line, and start nothing")
    parser.add_argument("--standby", action="store_true", help="serve once no other process started so serves")
    parser.add_argument("--front", action="store_true", help="take requests for rooms that other processes have")
    parser.add_argument("--room", nargs="?", const="", help="have this room, or stand by; clients ask fronts")
    parser.add_argument("--port", type=int, help="in place of the port of `listen`")
    parser.add_argument("--operate-port", type=int, metavar="PORT", help="in place of the port of `operate`")
    options = parser.parse_args(words)
    if options.front and options.room is not None or options.standby and (options.front or options.room is not None):
        parser.error("a process is a front, or has a room, or stands by for all of it; who has a room stands by anyway")
    role = Role(options.front, options.room, options.standby)
    if sys.version_info < (3, 11):
        print("entangle-server: a server needs Python 3.11 or later", file=sys.stderr)
        return 2
    try:
        if options.check:
            return check(options.file)
        file = _on_ports(checked(options.file), options.port, options.operate_port)
        role.check(file)
        return asyncio.run(serve(file, role))
    except FileRefused as error:
        print(error, file=sys.stderr)
        return 1
    except ImportError as error:
        if error.name is None or error.name.partition(".")[0] != "aiohttp":
            raise
        print(f"entangle-server: it lacks {error.name}: apt-get install python3-aiohttp", file=sys.stderr)
        return 2
    except (OSError, Error) as error:
        print(f"entangle-server: {error}", file=sys.stderr)
        return 1


if __name__ == "__main__":
    sys.exit(main())
