"""A tool server over HTTP by uvicorn, where that is installed."""
from __future__ import annotations

import asyncio
import importlib
from typing import TYPE_CHECKING, Any, Dict

from .._log import log
from ._heads import is_local
from ._http_settings import LOCAL

if TYPE_CHECKING:
    from .server import ToolServer

# How long connections may take to close, at the end.
_SECONDS = 2.0


def run_http(server: ToolServer, host: str, port: int, settings: Dict[str, Any]) -> None:
    """Answers until it is interrupted."""
    try:
        uvicorn: Any = importlib.import_module("uvicorn")
    except ImportError:
        raise ImportError(
            "run_http() needs uvicorn: `pip install uvicorn`, or on Debian `apt install python3-uvicorn`. "
            "Any other server for ASGI can run server.asgi()"
        ) from None
    if is_local(host):
        # (a page elsewhere can't reach it by a name of its own that leads here)
        settings = {"hosts": LOCAL, **settings}
    elif settings.get("bearer") is None:
        log.warning("anyone who reaches %s can call the tools: no bearer= checks who it is", host)
    app = server.asgi(**{"path": "/mcp", **settings})

    class Uvicorn(uvicorn.Server):  # type: ignore[misc]
        """It ends the sessions first: it would wait for their streams."""

        async def shutdown(self, *given: Any, **named: Any) -> None:
            await app.close()
            # (a client that reads nothing would hold up the end)
            asyncio.get_running_loop().call_later(_SECONDS, setattr, self, "force_exit", True)
            await super().shutdown(*given, **named)

    Uvicorn(uvicorn.Config(app, host=host, port=port, lifespan="off", access_log=False)).run()
