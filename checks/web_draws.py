"""Recordings in which clients edit in all ways, drawn by a seed, for `checks/web`: the program's own draws put, patch and remove
shapes of one kind, and no client of theirs is refused an edit. Here records of all types, patches at all depths, appends, copies
and pastes, views and queries are drawn, and now and then what is refused."""
import json
import random

GREATEST = 2**53 - 1
TEXTS = ["", "a", "Hi", "é", "日本", "😀", "\u2028", "\x7f\x01", "\uffff", '"\\/', "__proto__", "x" * 20]
LONG_TEXTS = ["x" * 300, "y" * 8190, "é" * 4097]
KEYS = [*"a0 a0 a1 a1 a0V a1G Zz Zz Z0 az az az b00 bzz".split(), "z" * 27]
NO_KEYS = ["", "a", "a10", "b0", "é", "A" + "0" * 26, "a" + "0" * 255 + "1", "a-"]
NO_IDS = ["camera:c", "instance_presence:x", "nope", "shape:", "blob:1", "shape:a:b", "shape:" + "z" * 65, "", "page:é"]
METAS = [{}, {"a": 1}, {"l": [1, 2]}, {"__proto__": {"x": 1}}, {"m": {"n": {"t": "é"}}}, {"1": 0, "02": 1, "a": {}},
         {"\uffff": 1, "😀": 2, "z": 3}]
# With this a page is admitted, and a shape too heavy.
HEAVY = {"t": "x" * 32_600}
STYLE = {"color": "black", "size": "m"}
# The props of the shapes that are there at first, and what each hangs under.
FIRST = {
    "shape:a": ("text", "page:p", {**STYLE, "autoSize": False, "h": 1, "text": "é", "w": 1}),
    "shape:b": ("frame", "page:p", {"h": 100, "name": "日本", "w": 100}),
    "shape:c": ("draw", "shape:b", {**STYLE, "isClosed": False, "points": [{"x": 1, "y": 2}]}),
    "shape:d": ("note", "shape:c", {**STYLE, "text": "Hi"}),
    "shape:e": ("arrow", "page:p", {**STYLE, "bend": 0, "end": {"x": 5, "y": -5}, "start": {"x": 0, "y": 0}, "text": ""}),
}
KEYS_OF = {
    "page": "name name index meta",
    "binding": "meta",
    "asset": "meta",
    "document": "name meta",
    "shape": "x x parentId index props props props props props meta meta opacity",
    "props": "text text text points name w color",
    "meta": "a l l m n t __proto__",
}
COLORS, SIZES = ["black", "red", "white", "light-blue"], ["s", "m", "l", "xl"]


def compact(value):
    return json.dumps(value, separators=(",", ":"), ensure_ascii=False)


class Draws:
    """What is drawn by one seed."""

    def __init__(self, seed):
        self.random = random.Random(seed)

    def one(self, *things):
        return self.random.choice(things)

    def seldom(self, of=40):
        return self.random.randrange(of) == 0

    def number(self):
        return self.one(0, 1, 5, 100, -7, self.random.randrange(-1000, 1000), GREATEST if self.seldom(10) else 3)

    def extent(self):
        return abs(self.number())

    def text(self):
        return self.one(*(LONG_TEXTS if self.seldom(80) else TEXTS))

    def key(self):
        return self.one(*(NO_KEYS if self.seldom() else KEYS))

    def shape(self):
        return "shape:" + self.one(*"abcdeabcdeabcdefgh")

    def page(self):
        return self.one("page:p", "page:p", "page:q")

    def parent(self):
        return self.one("page:z", "shape:z", "asset:i", 7) if self.seldom() else self.one(self.page(), self.shape())

    def point(self):
        return {"x": self.number(), "y": self.number()}

    def id(self):
        if self.seldom(150):
            return self.one(*NO_IDS)
        return self.one(self.page(), *(self.shape() for _ in range(8)), "binding:" + self.one(*"12"), self.one("asset:i", "document:d"))

    def props(self, kind):
        style = {"color": self.one(*COLORS), "size": self.one(*SIZES)}
        box = {"w": self.extent(), "h": self.extent()}
        return {
            "geo": {**style, **box, "geo": self.one("ellipse", "diamond"), "fill": "none", "dash": "draw", "text": self.text()},
            "draw": {**style, "points": [self.point() for _ in range(self.random.randrange(4))], "isClosed": True},
            "arrow": {**style, "start": self.point(), "end": self.point(), "bend": self.number(), "text": self.text()},
            "text": {**style, **box, "text": self.text(), "autoSize": False},
            "frame": {**box, "name": self.text()},
            "group": {},
            "note": {**style, "text": self.text()},
            "image": {**box, "assetId": self.one(None, "asset:i")},
        }[kind]

    def record(self, id):
        made = {"id": id, "typeName": id.split(":")[0], "meta": HEAVY if self.seldom(30) else self.one(*METAS)}
        if made["typeName"] == "shape":
            kind = self.one("geo", "draw", "arrow", "text", "frame", "group", "note", "image")
            made |= {"type": kind, "x": self.number(), "y": self.number(), "rotation": 0, "parentId": self.parent(),
                     "isLocked": False, "opacity": self.random.randrange(101), "props": self.props(kind)}
            made |= {"index": self.key()} if self.one(True, False) else {}
        else:
            made |= {
                "page": {"name": self.text(), "index": self.key()},
                "asset": {"type": "image", "props": {"w": 1, "h": 2, "name": "n", "src": None, "mimeType": "m"}},
                "binding": {"type": "arrow", "fromId": self.shape(), "toId": self.shape(), "props": {
                    "terminal": self.one("start", "end"), "anchor": {"x": 0, "y": self.random.randrange(1001)}, "isExact": True}},
                "document": {"name": "d", "gridSize": self.random.randrange(1, 1001)},
                "instance_presence": {"userName": self.text(), "color": "c", "currentPageId": "page:p", "selectedShapeIds":
                                      [self.shape()], "cursor": self.one(None, self.point())},
            }.get(made["typeName"], {})
        return self.spoilt(made) if self.seldom() else made

    def spoilt(self, record):
        """The record with a field missing, too many or of another kind."""
        fields = self.one(record, record.get("props", record))
        key = self.one(*fields, "extra")
        if self.one(True, False) and key in fields:
            del fields[key]
        else:
            fields[key] = self.one(None, True, -1, "x", [], {}, GREATEST, "shape:a", ["a"], "q" * 9000, 101, [{"x": 1}])
        return self.one(record, record, record, None, 1, [])

    def patch(self, key):
        """A patch of a page, a shape, or what stands under a key, of the keys named there, those that matter more often."""
        keys = self.random.choices(KEYS_OF[key].split(), k=self.one(0, 1, 1, 1, 2, 2))
        return {inner: self.change(inner) for inner in [*keys, *(["type"] if self.seldom(100) else [])]}

    def change(self, key):
        """An operation on what stands under a key."""
        put = {"x": self.number, "parentId": self.parent, "index": self.key, "opacity": lambda: self.random.randrange(101)}
        if key in KEYS_OF:
            return ["patch", self.patch(key)]
        if key in put:
            return ["put", put[key]()]
        if key in ("text", "name", "t"):
            return self.one(*[["append", self.text(), self.one(0, 1, 2, 2, 3, 4, 6)]] * 4, ["put", self.text()])
        if key in ("points", "l"):
            return ["append", [self.point()], self.one(0, 1, 1, 2)]
        return self.one(["put", self.one(1, "t", [1], {"n": [2]}, None)], ["delete"], ["patch", {"n": ["put", 1]}])

    def operation(self, id):
        kind = id.split(":")[0]
        return self.one(*[["put", self.record(id)]] * 4, ["remove"], *[["patch", self.patch(kind if kind in KEYS_OF else "shape")]] * 6)

    def diff(self):
        return {id: self.operation(id) for id in [self.id() for _ in range(self.one(1, 1, 1, 2, 3, 5))]}

    def query(self, levels=2):
        field = self.one("type", "x", "index", "parentId", "meta")
        if levels == 0 or self.one(True, False):
            return self.one(["eq", field, self.one("geo", 0, "a0", "page:p", *METAS)], ["neq", field, self.one("geo", 0, {})],
                            ["gt", field, self.one(0, -5, GREATEST)])
        inner = [self.query(levels - 1) for _ in range(self.random.randrange(3))]
        return self.one(["not", self.query(levels - 1)], ["and", inner], ["or", inner])

    def event(self, clients):
        view = {self.one("box", "tree", "bound", "count"): self.one(self.page(), self.shape(), "nope")}
        paste = {"dx": self.number(), "dy": self.number(), "parent": self.one(self.page(), self.shape()),
                 "prefix": self.one(*"qrst") + str(self.random.randrange(6))}
        session = self.random.randrange(clients + 3)
        kinds = [
            (36, lambda: {"do": "edit", "diff": self.diff()}),
            (4, lambda: {"do": "presence", "record": self.record("shape:a" if self.seldom() else "instance_presence:me")}),
            (6, lambda: {"do": "mark", "name": self.one("m", "n", "")}),
            (10, lambda: {"do": self.one("undo", "undo", "redo")}),
            (2, lambda: {"do": "bail", "name": self.one("m", "n")}),
            (4, lambda: {"do": "copy", "ids": ["shape:" + name for name in self.random.sample("abcdeabf", self.one(1, 2, 3))]}),
            (5, lambda: {"do": "paste", **paste}),
            (1, lambda: {"do": "watch", "view": view}),
            (4, lambda: {"do": "query", "type": self.one("shape", "shape", "page", "binding"), "where": self.query()}),
            (6, lambda: {"do": "show"}),
            (1, lambda: {"do": "cut"}),
            (2, lambda: {"do": "connect", "readonly": self.seldom(6)}),
            (16, lambda: {"do": "deliver"}),
        ]
        [happens] = self.random.choices([*(made for _, made in kinds), None], [*(weight for weight, _ in kinds), 30])
        if happens is None:
            return {"do": "lose" if self.seldom(30) else self.one("handle", "send"), "session": session}
        return {"client": self.random.randrange(clients), **happens()}


def first():
    """The edit that puts what is there at first."""
    binding = {"fromId": "shape:e", "id": "binding:1", "meta": {}, "toId": "shape:d", "type": "arrow", "typeName": "binding",
               "props": {"anchor": {"x": 0, "y": 0}, "isExact": True, "terminal": "end"}}
    page = {"id": "page:p", "index": "a1", "meta": {}, "name": "P", "typeName": "page"}
    shapes = [{"id": id, "isLocked": False, "meta": {"l": [1]}, "opacity": 100, "parentId": parent, "props": props, "rotation": 0,
               "type": kind, "typeName": "shape", "x": 0, "y": 0} for id, (kind, parent, props) in FIRST.items()]
    return {record["id"]: ["put", record] for record in [page, *shapes, binding]}


def wiped():
    """A recording in which a client comes back after the room forgot what was removed, so that it gets the document anew, and with
    a pending patch of what is of another type by then."""
    group = {"isLocked": False, "meta": {}, "opacity": 100, "parentId": "page:p", "props": {}, "rotation": 0, "type": "group",
             "typeName": "shape", "x": 0, "y": 0}
    frame = {**group, "id": "shape:a", "index": "a1", "type": "frame", "props": {"h": 1, "name": "", "w": 1}}
    ids = [f"shape:{place}" for place in range(3_001)]
    enters = [{"client": 1, "do": "connect", "readonly": False}, {"do": "handle", "session": 1}, {"do": "send", "session": 1},
              {"client": 1, "do": "deliver"}]
    returns = [{**event, **({"session": 2} if "session" in event else {})} for event in enters]
    events = [
        {"recording": 1, "version": 3}, {"do": "client", "version": 3}, {"do": "client", "version": 3},
        {"client": 0, "do": "connect", "readonly": False}, {"do": "handle", "session": 0}, {"do": "send", "session": 0},
        {"client": 0, "do": "deliver"},
        {"client": 0, "diff": first(), "do": "edit"}, {"do": "handle", "session": 0},
        *enters, {"client": 1, "do": "show"}, {"client": 1, "do": "cut"},
        {"client": 1, "diff": {"shape:a": ["patch", {"props": ["patch", {"text": ["put", "b"]}]}]}, "do": "edit"},
        {"client": 0, "diff": {id: ["put", {**group, "id": id, "index": "a1"}] for id in ids}, "do": "edit"},
        {"client": 0, "diff": {"shape:a": ["put", frame], **{id: ["remove"] for id in [*ids, "shape:e"]}}, "do": "edit"},
        {"do": "handle", "session": 0}, {"do": "handle", "session": 0},
        *returns, {"client": 1, "do": "show"}, {"do": "handle", "session": 2}, {"do": "end"},
    ]
    return [compact(event) for event in events]


def with_show(event):
    """The event, and what its client shows then, where its document may be another one by what it did before."""
    shows = event["do"] in ("deliver", "undo", "redo", "bail")
    return [event, {"client": event["client"], "do": "show"}] if shows else [event]


def lines(seed, size):
    """A recording of so many drawn events, of which some can't happen. What is there at first is put by the last client, which does
    nothing else, so that no undo takes it back."""
    draws = Draws(seed)
    versions = draws.one([3, 3], [3, 3, 3], [3, 2, 3], [3, 1, 3, 3])
    clients = range(len(versions))
    into = [event for client in clients for event in (
        {"client": client, "do": "connect", "readonly": False}, {"do": "handle", "session": client},
        {"do": "send", "session": client}, {"client": client, "do": "deliver"})]
    events = [
        {"recording": 1, "version": 2 if draws.seldom(12) else draws.one(3, 3, 4)},
        *({"do": "client", "version": version} for version in versions),
        *into,
        {"client": clients[-1], "diff": first(), "do": "edit"},
        *({"do": do, "session": session} for do, session in [("handle", clients[-1]), *(("send", client) for client in clients)]),
        *({"client": client, "do": "deliver"} for client in clients),
        *(shown for _ in range(size) for shown in with_show(draws.event(clients[-1]))),
        *({"client": client, "do": "show"} for client in clients),
        {"do": "end"},
    ]
    return [compact(event) for event in events]
