"""Replies of a hostile server, which a walking client gets."""

import re
import socket
import threading

from fuzzing import corpus, kinds, mutations, server, walk_model
from fuzzing.server import Wrong

PLACE = b"127.0.0.1:00000"
NO_UPDATE = b')]}\'\n{"response":{"app":[{"appid":"mini","status":"ok","updatecheck":{"status":"noupdate"}}],"protocol":"3.1"}}'
CLIENTS = [
    ["--version", ""],
    ["--version", "1.0", "--fp", "1.656f60d8a092c8c25e0164886090b4ce46ba022eb801bdd480912ba47d1ac9f4"],
    ["--version", "2.0", "--cohort", "stable:0", "--session", "abc", "--prefix", "3"],
]


def whole(body, kind=b"application/json"):
    """The bytes of a reply with a body."""
    return b"HTTP/1.1 200 OK\r\nContent-Type: %s\r\nContent-Length: %d\r\n\r\n" % (kind, len(body)) + body


def package(path):
    """The package of a path, or some bytes."""
    name = path.split(b"?")[0].rsplit(b"/", 1)[-1].decode("latin-1")
    file = corpus.EXAMPLES / "packages" / name
    if re.fullmatch(r"[\w-]+(\.[\w-]+)+", name) and file.is_file():
        return file.read_bytes()
    return b"x" * 100


class Host:
    """A server that gives each post and each download what a case says, and then ends the connection."""

    def __init__(self):
        self.listener = socket.socket()
        while True:
            self.listener.bind(("127.0.0.1", 0))
            if self.listener.getsockname()[1] >= 10000:
                break
            self.listener.close()
            self.listener = socket.socket()
        self.listener.listen(16)
        self.port = self.listener.getsockname()[1]
        self.begin([], [])
        threading.Thread(target=self.accept_all, daemon=True).start()

    def begin(self, posts, gets):
        """What the next posts and downloads get; of a download how it is changed."""
        self.posts, self.gets, self.sent, self.bodies, self.fault = list(posts), list(gets), [], [], None

    def accept_all(self):
        while True:
            connection, _ = self.listener.accept()
            with connection:
                connection.settimeout(server.LIMIT)
                try:
                    self.serve(connection)
                except OSError:
                    pass

    def serve(self, connection):
        read = b""
        while b"\r\n\r\n" not in read:
            more = connection.recv(65536)
            if not more:
                return
            read += more
        head, _, body = read.partition(b"\r\n\r\n")
        length = re.search(rb"\r\nContent-Length: (\d+)", head)
        while length and len(body) < int(length.group(1)):
            body += connection.recv(65536)
        if head.startswith(b"POST"):
            reply = self.posts.pop(0) if self.posts else whole(NO_UPDATE)
            self.sent.append(reply)
        else:
            reply = self.download(head.split(b" ")[1])
        connection.sendall(reply)

    def download(self, path):
        how = self.gets.pop(0) if self.gets else "whole"
        body = package(path)
        reply = whole(body, b"application/octet-stream")
        self.bodies.append(body if how in ("whole", "more") else None)
        if how == "whole":
            return reply
        return {"cut": reply[:-1], "more": reply + b"x", "other": whole(b"y" * len(body)), "none": b"", "404": b"HTTP/1.1 404 Not Found\r\nContent-Length: 0\r\n\r\n"}[how]


class Replies(kinds.Kind):
    """Replies to a walking client: their JSON, their heads, and downloads that are cut or changed."""

    name, words, limit, share, batch = "replies", "json", 300000, 8, 200

    def __init__(self, program, folder):
        super().__init__(program, folder)
        self.host = None
        # offers are what leads furthest
        self.valid += [data for data in self.valid if b'"manifest"' in data] * 3

    def make(self, chances, count):
        json = mutations.Mutator(chances, self.corpus, self.valid, "json", self.limit)
        heads = mutations.Mutator(chances, [b""], [b""], "http", self.limit)
        return [self.case_of(chances, json, heads) for _ in range(count)]

    def case_of(self, chances, json, heads):
        data = json.case()
        if not walk_model.is_local(data):
            data = chances.choice(self.corpus)
        posts = [whole(data)]
        if chances.randrange(5) == 0:
            head, _, body = posts[0].partition(b"\r\n\r\n")
            heads.corpus = heads.valid = [head + b"\r\n\r\n"]
            posts = [heads.case() + body]
        if chances.randrange(4) == 0:
            posts.append(whole(chances.choice(self.corpus)))
        gets = [chances.choice(("whole",) * 8 + ("cut", "more", "other", "none", "404")) for _ in range(2)]
        how = {"posts": [it.decode("latin-1") for it in posts], "gets": gets, "client": chances.randrange(len(CLIENTS))}
        return kinds.Case(data, how)

    def outcome(self, data):
        """The model's, since a walk prints no fault of a reply; `Wrong` if the walk doesn't go by it."""
        self.judge(kinds.Case(data, {"posts": [whole(data).decode("latin-1")], "gets": [], "client": 0}))
        return walk_model.reply_fault(data) or "read"

    def judge(self, case):
        self.host = self.host or Host()
        place = b"127.0.0.1:%05d" % self.host.port
        posts = [it.encode("latin-1").replace(PLACE, place) for it in case.how["posts"]]
        self.host.begin(posts, case.how["gets"])
        words = [self.program, "walk", "--to", place.decode(), "--app", "mini", *CLIENTS[case.how["client"]]]
        status, output, errors = server.run(words)
        fault = walk_model.walk_fault(status, output, errors, self.host.sent, self.host.bodies)
        if fault:
            raise Wrong(fault)
        if posts[0] == whole(case.data.replace(PLACE, place)):
            fault = walk_model.first_fault(status, output, errors, walk_model.heard(case.data, "mini"))
            if fault:
                raise Wrong(fault)
        return errors[7:9].decode() if status else f"{output.count(b'step ')} steps"
