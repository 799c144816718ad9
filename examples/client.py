#!/usr/bin/env python3
"""Joins room 0 of a server on this machine, draws a page there, and prints what it is told, until it is interrupted:

    python3 examples/client.py PORT NAME [BOARD]

The page is NAME's own; `ann` will do. With BOARD it goes to that board behind a proxy, as docs/SERVICE.md says, and the page is the
board's. It stands on Debian's package python3-websockets, or on websockets of PyPI.
What the texts mean is in docs/FORMATS.md, under 'Messages' and 'Sockets'.
"""
import asyncio
import json
import sys

sys.path.append("/usr/lib/python3/dist-packages")  # Debian's packages, where another Python comes first
import websockets

VERSION_3 = {"schemaVersion": 2, "sequences": {"rooms.base": 1, "rooms.binding": 1, "rooms.shape": 2}}


async def draw(port, name, board=None):
    path, room = (f"/board/{board}", sum(board.encode()) % 16) if board else ("/", 0)
    page = {"id": f"page:{board or name}", "index": "a1", "meta": {}, "name": f"{name}'s page", "typeName": "page"}
    async with websockets.connect(f"ws://127.0.0.1:{port}{path}", max_size=None) as link:
        await link.send(json.dumps({"readonly": False, "room": room, "type": "join"}))
        await link.send(json.dumps({"connectRequestId": name, "lastServerClock": -1, "protocolVersion": 2,
                                    "schema": VERSION_3, "type": "connect"}))
        print(await link.recv(), flush=True)  # the room's document
        await link.send(json.dumps({"clientClock": 1, "diff": {page["id"]: ["put", page]}, "type": "push"}))
        async for text in link:  # what became of the page, and what others do
            print(text, flush=True)


try:
    asyncio.run(draw(*sys.argv[1:4]))
except websockets.ConnectionClosed as closed:
    print(f"the server ended it: {closed}")
except KeyboardInterrupt:
    pass
