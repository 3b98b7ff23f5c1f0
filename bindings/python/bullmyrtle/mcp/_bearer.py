"""Who may call a tool server over HTTP, by a bearer's token; and where such a token comes from. Why no server here gives
tokens: docs/decisions/library_and_bindings.md#python-tool-servers-over-http."""
from __future__ import annotations

import inspect
import json
import re
import urllib.parse
from typing import Any, Callable, Dict, Optional, Sequence

from ._heads import Answer, Head

#: The path of a protected resource's metadata (RFC 9728).
WELL_KNOWN = "/.well-known/oauth-protected-resource"
_TOKEN = re.compile(r"[A-Za-z0-9._~+/-]+=*")


class NotEnough(Exception):
    """What a check raises for a token that is good, but not for this server: it lacks a scope."""

    def __init__(self, scope: str) -> None:
        """With the scopes that are needed, and a blank between two."""
        super().__init__(scope)
        self.scope = scope


class Bearer:
    """A check of tokens.

    >>> def check(token):
    ...     return users.get(token)
    >>> app = server.asgi(bearer=Bearer(check, "https://example.com/mcp", ["https://login.example.com"]))
    """

    def __init__(
        self,
        check: Callable[[str], Any],
        resource: str,
        authorization_servers: Sequence[str] = (),
        *,
        scopes: Sequence[str] = (),
        metadata: Optional[str] = None,
    ) -> None:
        """Make one.

        check -- gets a token, and gives who has it, which `context.user` is; None where the token isn't good. It may
            be an `async def`. It has to check that the token was made for this server. What it gives for one user
            has to be equal each time, since a session is for the user who began it
        resource -- the URL of the server, as its clients have it
        authorization_servers -- the URLs of the servers that give tokens
        scopes -- what clients should ask for
        metadata -- the URL of what says this to clients, if it isn't the one that belongs to the resource's
        """
        parts = urllib.parse.urlsplit(resource)
        if parts.scheme not in ("https", "http") or not parts.netloc or parts.fragment:
            raise ValueError(f"the resource is a URL without a fragment: {resource!r}")
        path = "" if parts.path == "/" else parts.path
        self._check = check
        self._url = metadata or f"{parts.scheme}://{parts.netloc}{WELL_KNOWN}{path}"
        about: Dict[str, Any] = {"resource": resource, "bearer_methods_supported": ["header"]}
        if authorization_servers:
            about["authorization_servers"] = list(authorization_servers)
        if scopes:
            about["scopes_supported"] = list(scopes)
        self.metadata = json.dumps(about).encode()
        self._scope = " ".join(scopes)
        if re.search(r'["\\\x00-\x1f\x7f]', self._url + self._scope):
            raise ValueError("a URL or a scope has a character that no header may have")

    def _refused(self, status: int, words: str, error: str = "", scope: str = "") -> Answer:
        parts = [f'error="{error}"'] if error else []
        parts.append(f'resource_metadata="{self._url}"')
        parts += [f'scope="{scope}"'] if scope else []
        return Answer(status, words, [("WWW-Authenticate", f"Bearer {', '.join(parts)}")])

    async def user(self, head: Head) -> Any:
        """Who calls. Raises Answer."""
        kind, _, token = (head.get(b"authorization") or "").partition(" ")
        if kind.lower() != "bearer" or _TOKEN.fullmatch(token.strip()) is None:
            raise self._refused(401, "Unauthorized: a bearer's token is needed", scope=self._scope)
        try:
            found = self._check(token.strip())
            user = await found if inspect.isawaitable(found) else found
        except NotEnough as lacks:
            words = "Forbidden: the token lacks a scope"
            raise self._refused(403, words, "insufficient_scope", lacks.scope) from None
        if user is None or user is False:
            raise self._refused(401, "Unauthorized: the token isn't valid", "invalid_token", self._scope)
        return user
