"""Runs nginx with a file of service/ in front of a server on this machine. Only addresses, ports and certificate paths are replaced."""
import pathlib
import socket
import ssl
import subprocess
import sys
import time
from typing import NamedTuple, Optional, Union

from commands import TOP
from served import free_port, received, sent

HOST, NAME = "127.0.7.1", "persod.shop"
ADDRESSES = {"office": "127.0.7.2", "m1": "127.0.7.11", "m2": "127.0.7.12", "stranger": "127.0.7.13"}
TLS = "persod-tls.conf"
FILES = "persod.conf", TLS
WHOLE = """daemon off; master_process off; error_log {folder}/error.log warn; pid {folder}/pid;
events {{}}
http {{
    access_log off;
    client_body_temp_path {folder}/body; proxy_temp_path {folder}/proxy; fastcgi_temp_path {folder}/fastcgi;
    uwsgi_temp_path {folder}/uwsgi; scgi_temp_path {folder}/scgi;
    {server}
}}
"""


class Answer(NamedTuple):
    """The status and body of a response. Status 0 means that the connection was closed without a response."""

    status: int
    body: bytes


def message(method: str, target: str, body: Union[bytes, str] = b"", headers: Optional[dict[str, str]] = None, host: Optional[str] = NAME) -> bytes:
    """Returns a request as a client library sends it. With a header Transfer-Encoding, `body` must already be in chunks."""
    raw = body.encode() if isinstance(body, str) else body
    lines = {"Connection": "close"} | ({"Host": host} if host else {}) | (headers or {})
    if "Transfer-Encoding" not in lines and "Content-Length" not in lines and (raw or method == "POST"):
        lines["Content-Length"] = str(len(raw))
    return "".join([f"{method} {target} HTTP/1.1\r\n", *(f"{name}: {value}\r\n" for name, value in lines.items()), "\r\n"]).encode() + raw


def chunks(body: str, size: int = 1) -> bytes:
    """Returns a body in chunks of `size` bytes."""
    raw = body.encode()
    pieces = [raw[place : place + size] for place in range(0, len(raw), size)]
    return b"".join(b"%x\r\n%s\r\n" % (len(piece), piece) for piece in [*pieces, b""])


class Certificates:
    """A CA, and certificates for the server and each client. `other office` has a certificate of another CA, and `m1 of a shop` a longer subject."""

    SUBJECTS = {NAME: f"/CN={NAME}", **{client: f"/CN={client}" for client in ADDRESSES}, "m1 of a shop": "/O=shop/CN=m1", "other office": "/CN=office"}

    def __init__(self, folder: pathlib.Path) -> None:
        self.folder = folder
        for authority in ("ca", "other-ca"):
            self.openssl("req", "-x509", *self.new_key(authority), "-subj", f"/CN={authority}", "-days", "2", "-out", f"{authority}.pem")
        for who, subject in self.SUBJECTS.items():
            authority = "other-ca" if who.startswith("other") else "ca"
            self.openssl("req", *self.new_key(who), "-subj", subject, "-addext", f"subjectAltName=DNS:{NAME}", "-out", f"{who}.csr")
            self.openssl("x509", "-req", "-in", f"{who}.csr", "-CA", f"{authority}.pem", "-CAkey", f"{authority}.key", "-CAcreateserial",
                         "-copy_extensions", "copy", "-days", "2", "-out", f"{who}.pem")

    def new_key(self, name: str) -> list[str]:
        return ["-newkey", "ec", "-pkeyopt", "ec_paramgen_curve:P-256", "-nodes", "-keyout", f"{name}.key"]

    def openssl(self, *words: str) -> None:
        subprocess.run(["openssl", *words], cwd=self.folder, check=True, capture_output=True)

    def wrapped(self, link: socket.socket, who: Optional[str], server: Optional[str]) -> ssl.SSLSocket:
        context = ssl.create_default_context(cafile=str(self.folder / "ca.pem"))
        context.check_hostname = server == NAME
        if who:
            context.load_cert_chain(self.folder / f"{who}.pem", self.folder / f"{who}.key")
        return context.wrap_socket(link, server_hostname=server)


class Proxy:
    """nginx with the configuration `text`. It recognises clients by their address or their certificate."""

    def __init__(self, text: str, server_port: int, folder: pathlib.Path, certificates: Optional[Certificates]) -> None:
        self.port, self.folder, self.certificates, self.numbers = free_port(), folder, certificates, {}
        for old, new in (("10.0.7.", "127.0.7."), (":443 ", f":{self.port} "), (":80 ", f":{self.port} "), (":80;", f":{self.port};"), (":8807", f":{server_port}")):
            text = text.replace(old, new)
        if certificates:
            text = text.replace("/etc/nginx/persod/", f"{certificates.folder}/")
        (folder / "html").mkdir()
        (folder / "html" / "index.html").write_text("a page of nginx")
        (folder / "nginx.conf").write_text(WHOLE.format(folder=folder, server=text))
        self.process = subprocess.Popen(
            ["nginx", "-p", str(folder), "-c", str(folder / "nginx.conf")], stdin=subprocess.DEVNULL, stderr=(folder / "stderr").open("w")
        )
        for _ in range(200):
            try:
                socket.create_connection((HOST, self.port), timeout=1).close()
                return
            except OSError:
                if self.process.poll() is not None:
                    break
                time.sleep(0.02)
        self.stop()
        sys.exit(f"nginx doesn't listen: {(folder / 'stderr').read_text()}")

    def stop(self) -> None:
        self.process.terminate()
        self.process.wait(30)

    def connect(self, client: Optional[str], server: Optional[str] = NAME) -> socket.socket:
        source = "127.0.7.1" if self.certificates else ADDRESSES[client]
        link = socket.create_connection((HOST, self.port), timeout=600, source_address=(source, 0))
        link.setsockopt(socket.IPPROTO_TCP, socket.TCP_NODELAY, 1)
        return self.certificates.wrapped(link, client, server) if self.certificates else link

    def exchange(self, client: Optional[str], *pieces: bytes, server: Optional[str] = NAME, pause: float = 0) -> Answer:
        """Sends the pieces with pauses between them, and returns the first response."""
        with self.connect(client, server) as link:
            for place, piece in enumerate(pieces):
                time.sleep(pause if place else 0)
                sent(link, piece)
            head, _, body = received(link).partition(b"\r\n\r\n")
        return Answer(int(head[9:12]) if head.startswith(b"HTTP/1.1 ") else 0, body)

    def ask(self, client: str, method: str, target: str, body: Union[bytes, str] = b"", **more: object) -> Answer:
        return self.exchange(client, message(method, target, body, **more))

    def number(self, name: str) -> int:
        """Returns a new request number of the client `name`."""
        self.numbers[name] = self.numbers.get(name, 0) + 1
        return self.numbers[name]

    def post(self, client: str, body: Union[bytes, str], name: str = "", tail: str = "", **more: object) -> Answer:
        """Sends a request of `client` under its own name, or under `name`, with a new request number."""
        name = name or client
        return self.ask(client, "POST", f"/c/{name}/{self.number(name)}{tail}", body, **more)


def text_of(file: str) -> str:
    return (TOP / "service" / file).read_text()
