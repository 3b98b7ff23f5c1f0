"""A tool server: one tool counts words, the other asks the host's model for a title."""
import sys

from bullmyrtle.mcp import Context, ToolServer

server = ToolServer("words", "1.0")


@server.tool
def count(text: str) -> int:
    """Counts the words of a text."""
    return len(text.split())


@server.tool
async def title(text: str, context: Context) -> str:
    """Finds a title for a text."""
    return (await context.sample(f"A title for: {text}", 20))["content"]["text"]


sys.exit(server.run())
