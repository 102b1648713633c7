"""What `scan` and `audit` must print, from the live pairs of a region, as docs/FORMAT.md describes it. It shares no code with the
program."""

PUT, GET, DELETE = b"put", b"get", b"delete"


def answer_to(query, pairs):
    """The text of the answer to a query over pairs by rising key; one without a limit counts."""
    inside = [(key, value) for key, value in pairs if query.low <= key <= query.high]
    if query.limit is None:
        return b"%d\n" % len(inside)
    shown = inside[: query.limit]
    last = b"more %d\n" % inside[query.limit][0] if len(inside) > query.limit else b"end\n"
    return b"".join(b"%d %s\n" % pair for pair in shown) + last


def reply_to(request, cells):
    """The reply of one cell for each key to a request, which changes the cell."""
    value = cells.get(request.key)
    if request.name == PUT:
        cells[request.key] = request.value
        return b"stored"
    if request.name == DELETE:
        cells.pop(request.key, None)
    if value is None:
        return b"absent"
    return b"value " + value if request.name == GET else b"deleted"


def may_be_refused(request, cells, reply):
    if reply == b"full":
        return request.name == PUT or request.name == DELETE and request.key in cells
    return reply == b"stopped" or reply in (b"versions spent", b"too long") and request.name == PUT


def is_lawful(request, reply, cells, stopped):
    """Whether a reply is lawful behind those before it. It brings the cells up to date, and the keys that are stopped."""
    if reply == b"stopped":
        stopped.add(request.key)
        return True
    if request.key in stopped:
        return False
    return may_be_refused(request, cells, reply) or reply == reply_to(request, cells)


def verdict_on(pairs, requests, replies):
    """The text of the verdict on replies to requests, from the live pairs on."""
    cells, stopped = dict(pairs), set()
    for number, (request, reply) in enumerate(zip(requests, replies)):
        if not is_lawful(request, reply, cells, stopped):
            return b"unlawful %d\n" % number
    if len(requests) != len(replies):
        return b"unlawful %d\n" % min(len(requests), len(replies))
    return b"lawful\n"
