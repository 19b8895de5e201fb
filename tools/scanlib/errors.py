"""What a user can get wrong, told in words."""

LONGEST = 120


class ToolError(Exception):
    """Ends the command with its text and exit status 2."""


def shown(text: str) -> str:
    """Somebody's text within a message: on one line, and no longer than can be read."""
    text = "".join(c if c.isprintable() else " " if c.isspace() else "?" for c in text.strip())
    return text if len(text) <= LONGEST else f"{text[:LONGEST]}... ({len(text)} characters)"
