"""Who asks, and what they may: addresses behind proxies, tokens, and rates."""

from __future__ import annotations

import hashlib
import hmac
import ipaddress
import os
import re
import stat
import time
from collections import OrderedDict
from dataclasses import dataclass
from pathlib import Path
from typing import Optional, Sequence

from ._declared import Network
from ._faults import FileFault, FileRefused
from ._positions import client_of
from ._problems import Problem
from ._section import Section, read_toml

RIGHTS = ("ask", "read", "operate")

_DIGEST = re.compile(r"[0-9a-f]{64}")
_SUBJECT = re.compile("[^\x00-\x1f\x7f\ud800-\udfff]{1,100}")
_LONGEST_TOKEN = 200
_MOST_CLIENTS = 100_000


@dataclass(frozen=True)
class Caller:
    """Who asks: an address, and the subject of the token with its rights, if the server has tokens. Without any,
    everybody may ask and read."""

    address: str
    subject: Optional[str] = None
    rights: frozenset[str] = frozenset(RIGHTS)

    @property
    def client(self) -> str:
        """Whose limits count."""
        return self.address if self.subject is None else client_of(self.subject)

    def need(self, right: str) -> None:
        """Raises the Problem that the token doesn't allow this."""
        if right not in self.rights:
            raise Problem(403, "not_allowed", f"the token doesn't allow this: it lacks the right {right}")


# ---- tokens


@dataclass(frozen=True)
class Token:
    """A token, of which the file has only the digest."""

    digest: str
    subject: str
    rights: frozenset[str]


class Tokens:
    """The tokens of a file, which nobody but its owner may read or write."""

    def __init__(self, path: Path) -> None:
        self.path = path
        self._tokens = read_tokens(path)

    def reread(self) -> None:
        """Takes what the file says now. Raises FileRefused, and then nothing has changed."""
        self._tokens = read_tokens(self.path)

    def caller(self, address: str, header: Optional[str]) -> Optional[Caller]:
        """Who asks with this header; None if nobody has the token. Each token is compared in a time that doesn't depend
        on where it differs, and all of them are."""
        scheme, _, given = (header or "").partition(" ")
        if scheme.lower() != "bearer" or not 0 < len(given) <= _LONGEST_TOKEN:
            return None
        digest = hashlib.sha256(given.strip().encode("utf-8", "surrogateescape")).hexdigest()
        found = None
        for token in self._tokens:
            if hmac.compare_digest(token.digest, digest):
                found = token
        return None if found is None else Caller(address, found.subject, found.rights)


def read_tokens(path: Path) -> tuple[Token, ...]:
    """The tokens of a file. Raises FileRefused."""
    try:
        mode = stat.S_IMODE(os.stat(path).st_mode)
    except OSError as error:
        raise FileRefused((FileFault(path, 1, f"the file of tokens can't be read: {error.strerror}"),)) from None
    if mode & 0o077:
        raise FileRefused((FileFault(path, 1, f"the file of tokens has the mode {mode:04o}: chmod 600 it"),))
    outer = read_toml(path)
    tokens = []
    for number, given in enumerate(outer.take("tokens", list, [])):
        if isinstance(given, dict):
            tokens.append(_token(Section(outer.source, ("tokens", number), given)))
        else:
            outer.source.fault(("tokens", number), "a token is a table: [[tokens]]")
    outer.done()
    if outer.source.faults:
        raise FileRefused(tuple(sorted(set(outer.source.faults))))
    return tuple(token for token in tokens if token is not None)


def _token(section: Section) -> Optional[Token]:
    digest, subject = section.need("sha256", str), section.need("subject", str)
    rights = section.texts("may")
    if digest is not None and not _DIGEST.fullmatch(digest):
        section.fault("sha256", "is the SHA-256 of the token: 64 hex digits, in small letters")
    if subject is not None and not _SUBJECT.fullmatch(subject):
        section.fault("subject", "has 1 to 100 characters, and no control characters")
    if not rights or not set(rights) <= set(RIGHTS):
        section.fault("may", f"has some of {', '.join(RIGHTS)}")
    section.done()
    return None if digest is None or subject is None else Token(digest, subject, frozenset(rights))


# ---- addresses


def address_of(peer: Optional[str], forwarded: Sequence[str], trusted: Sequence[Network]) -> str:
    """The client's address: that of the connection; if a trusted proxy has it, the last one that X-Forwarded-For names
    and that isn't such a proxy's. Nobody else is believed."""
    address = peer or "unknown"
    hops = [hop.strip() for header in forwarded for hop in header.split(",")]
    while hops and _is_of(address, trusted):
        hop = hops.pop()
        try:
            address = str(ipaddress.ip_address(hop))
        except ValueError:
            break
    return address


def _is_of(address: str, networks: Sequence[Network]) -> bool:
    try:
        known = ipaddress.ip_address(address)
    except ValueError:
        return False
    return any(known in network for network in networks)


# ---- rates


class Rates:
    """How often each client asks: so many times a second, and so many at once after a pause."""

    def __init__(self, rate: int, burst: int) -> None:
        self._rate, self._burst = rate, max(burst, 1)
        # of each client what is left, and when that was so
        self._left: OrderedDict[str, tuple[float, float]] = OrderedDict()

    def take(self, client: str) -> Optional[int]:
        """Counts a request; after how many seconds to ask again, if it is one too many."""
        now = time.monotonic()
        left, then = self._left.pop(client, (float(self._burst), now))
        left = min(float(self._burst), left + (now - then) * self._rate)
        is_taken = left >= 1
        self._left[client] = (left - 1 if is_taken else left, now)
        while len(self._left) > _MOST_CLIENTS:
            self._left.popitem(last=False)
        return None if is_taken else max(1, round((1 - left) / self._rate))
