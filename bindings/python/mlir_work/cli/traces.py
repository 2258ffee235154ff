"""Adds the texts of operations to a trace: the option `--texts` of the prompt."""
from ..rewrites import rewrite_of

# The option of the prompt.
TEXTS = "--texts"
INDENT = "    "


def with_texts(lines, before, after):
    """Returns the lines below a reply, and below each rewrite its operation and the operations that it made, as text.
    `before` and `after` are the listings before and after the command. The operation of a rewrite is as it was before
    the command, or, if an earlier rewrite made it, as it is after the command. The operations that a rewrite made are
    as they are after the command. Operations that no longer exist have no text."""
    rewrites = [rewrite_of(line) if line.startswith("rewrote ") else None for line in lines]
    rewritten = {it.operation for it in rewrites if it}
    made = {number for it in rewrites if it for number in it.made}
    texts = {**before.heads(rewritten - made), **after.heads(made)}
    found = []
    for line, it in zip(lines, rewrites):
        numbers = [it.operation, *it.made] if it else []
        found += [line, *(INDENT + texts[number] for number in numbers if number in texts)]
    return found
