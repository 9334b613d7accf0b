"""Python's http.server, which answers with replies that it has in memory.

Usage: python3 bench/desk/peer.py PORT FOLDER

FOLDER has replies.json, which says of each target the file with the bytes of its whole reply. The body of a request is
read, and passed over.
"""
import http.server
import json
import pathlib
import sys


class Handler(http.server.BaseHTTPRequestHandler):
    protocol_version = "HTTP/1.1"
    disable_nagle_algorithm = True
    replies = {}

    def do_GET(self):
        self.wfile.write(self.replies[self.path])

    def do_POST(self):
        self.rfile.read(int(self.headers["Content-Length"]))
        self.wfile.write(self.replies[self.path + " POST"])

    def log_message(self, *_):
        pass


def main():
    port, folder = int(sys.argv[1]), pathlib.Path(sys.argv[2])
    files = json.loads((folder / "replies.json").read_text())
    Handler.replies = {target: (folder / name).read_bytes() for target, name in files.items()}
    http.server.HTTPServer(("127.0.0.1", port), Handler).serve_forever()


main()
