#!/usr/bin/env python3
"""Attacks `persod serve` through nginx with the configuration files of service/.

    bench/run proxy               attacks both configuration files as they are
    bench/run proxy --without     also removes each line of both files in turn, and expects that an attack or an honest request then goes wrong

The configuration files are persod.conf and persod-tls.conf. The script also tries the nftables rule persod.nft. Loopback addresses 127.0.7.x
replace 10.0.7.x. The office imports batches, machines make cards, and the office ends the session of a machine that is gone. The attacks are:

- a machine that acts as the office: under the office's name, under its own with every spelling of `do`, in pieces, in chunks, and in large
  bodies
- a machine that makes a card, reports its last command as failed, and requests the remake
- requests under another machine's name, and floods of requests and of connections
- requests of pages in a browser, under other names of the server, and without a certificate or with a wrong one

None of them may change anything. Idle connections must not block other clients, a driver's repeat must succeed after a restart, and batch files
up to 16 MiB must pass.

The nftables rule is loaded in a network namespace, if this machine allows it. Then only the users of nginx and of persod may connect to the
port, and only the user of persod may send responses from it.

Requires nginx and openssl. Exit status: 1 if a check fails."""
import json
import os
import pathlib
import pwd
import re
import shutil
import signal
import socket
import subprocess
import sys
import tempfile
import time
from typing import Callable

import served
from events import expect
from nginx import FILES, HOST, NAME, TLS, Answer, Certificates, Proxy, chunks, message, text_of
from served import Server, exchange, free_port, get
from small_shop import FIRST, batch_file

MOST = 16_777_216
MOST_OF_MACHINE = 4096
RESET = '{"do":"reset"}'
DISCARD = f'"do":"discard","blank":{FIRST + 9}'
DECIDED = 200, 409
IN_NAMESPACE = "--in-namespace"
BY_PAGES = [
    {"Origin": f"http://{NAME}"}, {"Origin": "null"}, {"Sec-Fetch-Site": "cross-site"}, {"Sec-Fetch-Site": "same-site"},
    {"Origin": "http://evil.example", "Sec-Fetch-Site": "none"}, {"Origin": f"http://{NAME}", "Sec-Fetch-Site": "same-origin"},
]
# Lines without effect on the attacks: they state a default, or a limit that this machine's OpenSSL has anyway.
WITHOUT_EFFECT = re.compile(r'default\s+"";|ssl_protocols ')


class Shop:
    """A server behind nginx."""

    def __init__(self, program: str, file: str, text: str, folder: pathlib.Path, certificates: Certificates) -> None:
        self.program, self.folder, self.tls = program, folder, file == TLS
        self.server = Server(program, folder / "shop.db", free_port())
        try:
            self.proxy = Proxy(text, self.server.port, folder, certificates if self.tls else None)
        except SystemExit:
            self.server.kill()
            raise

    def state(self) -> list[bytes]:
        """Returns the accounts, read without nginx."""
        return [exchange(self.server.port, get(target)) for target in ("/batch/B1", "/batch/B1/report", "/blanks/P1", "/batch/B9", "/blanks/P9")]

    def restart(self) -> None:
        self.server = Server(self.program, self.folder / "shop.db", self.server.port)

    def stop(self) -> None:
        self.proxy.stop()
        self.server.kill()

    def changes_nothing(self, what: str, attack: Callable[[], object], wanted: object) -> None:
        before = self.state()
        expect(what, attack(), wanted)
        expect(f"{what}: the accounts", self.state(), before)


# ---- honest requests


def stock(proxy: Proxy) -> None:
    for body in ('{"do":"product","product":"P1","max":255,"low":0,"check":false}', f'{{"do":"lot","lot":"L1","product":"P1","first":{FIRST},"count":10}}'):
        expect(f"the office asks {body}", proxy.post("office", body).status, 200)
    expect("a batch", proxy.post("office", batch_file(6), tail="/batch/B1/P1").status, 200)


def card(proxy: Proxy, machine: str, blank: int, last: str = "9000") -> dict:
    """Makes a card whose last command gets this status word, and returns the last reply."""
    reply = json.loads(proxy.post(machine, json.dumps({"do": "open", "batch": "B1", "blank": blank})).body)
    while reply.get("result") == "command":
        word = last if reply["index"] == 1 else "9000"
        asked = {"do": "answer", "session": reply["session"], "index": reply["index"], "sw": word}
        reply = json.loads(proxy.post(machine, json.dumps(asked)).body)
    return reply


def honest(shop: Shop) -> None:
    proxy = shop.proxy
    expect("a card", card(proxy, "m1", FIRST).get("result"), "good")
    for body in (RESET, ' {\n"do" :\t"reset" } ', '{"do":"reset"}' + " " * (MOST_OF_MACHINE - len(RESET))):
        expect(f"m1 asks {body.strip()}", proxy.post("m1", body).status, 200)
    expect("a batch that is called do", proxy.post("m1", f'{{"batch":"do","do":"open","blank":{FIRST}}}').status, 409)
    expect("in chunks", proxy.post("m1", chunks(RESET), headers={"Transfer-Encoding": "chunked"}).status, 200)
    opened = json.loads(proxy.post("m1", json.dumps({"do": "open", "batch": "B1", "blank": FIRST + 1})).body)
    asked = {"do": "abort", "session": opened["session"]}
    expect("an abort", proxy.post("m1", json.dumps(asked)).status, 200)
    expect("a release", proxy.post("m1", json.dumps({"do": "release", "upto": 1})).status, 200)
    for headers in ({}, {"Sec-Fetch-Site": "none"}, {"Sec-Fetch-Site": "same-origin"}):
        for target in ("/batch/B1", "/batch/B1/report", "/blanks/P1"):
            expect(f"the office reads {target} with {headers}", proxy.ask("office", "GET", target, headers=headers).status, 200)


def frees_a_machine(shop: Shop) -> None:
    """The office resets m2, which left a running session. Nothing else from the office passes under the name of a machine."""
    proxy = shop.proxy
    running = json.loads(proxy.post("m2", json.dumps({"do": "open", "batch": "B1", "blank": FIRST + 2})).body)["session"]
    others = [
        RESET + " ", " " + RESET, RESET + "\n", '{"do": "reset"}', '{"DO":"RESET"}', f'{{"do":"abort","session":{running}}}', '{"do":"release","upto":1}',
        f'{{"do":"open","batch":"B1","blank":{FIRST + 3}}}', f"{{{DISCARD}}}", '{"do":"reset","do":"reset"}', "",
    ]
    for body in others:
        shop.changes_nothing(f"the office asks {body!r} as m2", lambda: proxy.post("office", body, name="m2").status, 400)
    shop.changes_nothing("the office imports as m2", lambda: proxy.post("office", batch_file(1), name="m2", tail="/batch/B9/P1").status, 404)
    freed = proxy.post("office", RESET, name="m2")
    expect("the office frees m2", (freed.status, json.loads(freed.body)["session"]), (200, running))


# ---- a machine that acts as the office


def bodies_of_office() -> list[str]:
    return [
        f"{{{DISCARD}}}", '{"do":"withdraw","batch":"B1","record":"R6"}', '{"do":"remake","batch":"B1","record":"R2"}', '{"do":"close","batch":"B1"}',
        '{"do":"product","product":"P9","max":255,"low":0,"check":false}', '{"do":"lot","lot":"L9","product":"P1","first":9000,"count":5}',
        # doubled, nested, escaped, and hidden in a text
        f'{{"do":"reset",{DISCARD}}}', f'{{{DISCARD},"do":"reset"}}', f'{{"x":{{"do":"reset"}},{DISCARD}}}', f'{{{DISCARD},"x":["do","reset"]}}',
        f'{{"do" :"reset"\n,\t{DISCARD}}}', f'{{"do":"open","\\u0064o":"discard","blank":{FIRST + 9}}}', f'{{"\\u0064o":"discard","blank":{FIRST + 9}}}',
        f'{{"do":"\\u0064iscard","blank":{FIRST + 9}}}', f'{{{DISCARD},"x":"\\"do\\":\\"reset\\""}}', f'{{{DISCARD}}}//"do":"reset"', f'[{{{DISCARD}}}]',
        f"{{{DISCARD}}}\n", f"\ufeff{{{DISCARD}}}", f"{{{DISCARD}}}\0", f'\n{{\n"do"\n:\n"discard"\n,"blank":{FIRST + 9}}}',
        # long
        f'{{{DISCARD},"x":[' + '"do" ,' * 600 + '"reset"]}', f"{{{DISCARD}," + " " * (MOST_OF_MACHINE - 70) + '"x":"reset"}',
    ]


def acts_as_office(shop: Shop) -> None:
    proxy = shop.proxy
    for body in bodies_of_office():
        what = f"m1 asks {body[:90]!r}"
        shop.changes_nothing(what, lambda: proxy.post("m1", body).status, 400)
        shop.changes_nothing(f"{what} in chunks", lambda: proxy.post("m1", chunks(body, 7), headers={"Transfer-Encoding": "chunked"}).status, 400)
        shop.changes_nothing(f"{what} as office", lambda: proxy.post("m1", body, name="office").status, 403)
    shop.changes_nothing("m1 imports", lambda: proxy.post("m1", batch_file(1), tail="/batch/B9/P1").status, 404)
    shop.changes_nothing("m1 imports as office", lambda: proxy.post("m1", batch_file(1), name="office", tail="/batch/B9/P1").status, 403)
    split = message("POST", f"/c/m1/{proxy.number('m1')}", f'{{"do":"reset",{DISCARD}}}')
    for place in (10, len(split) - 40, len(split) - 10):
        shop.changes_nothing(f"split at {place}", lambda: proxy.exchange("m1", split[:place], split[place:], pause=0.02).status, 400)


def asks_own_remake(shop: Shop) -> None:
    proxy = shop.proxy
    expect("a failed card", card(proxy, "m1", FIRST + 4, "6F00").get("result"), "spoiled")
    lines = shop.state()[1].decode().split("\n")
    [record] = [line.split(" ")[1] for line in lines if line.startswith("record ") and " failed " in line][:1]
    body = f'{{"do":"remake","batch":"B1","record":"{record}"}}'
    shop.changes_nothing("m1 asks for the remake", lambda: proxy.post("m1", body).status, 400)
    expect("the office asks for it", proxy.post("office", body).status, 200)


def other_names(shop: Shop) -> None:
    proxy = shop.proxy
    release = '{"do":"release","upto":999999999999999998}'
    for client, name in (("m2", "m1"), ("m1", "m2"), ("stranger", "m1"), ("stranger", "office"), ("m1", "stranger")):
        for body in (RESET, release):
            shop.changes_nothing(f"{client} asks as {name}", lambda: proxy.ask(client, "POST", f"/c/{name}/999999999999999999", body).status, 403)
    for client in ("m1", "stranger"):
        for target in ("/batch/B1", "/batch/B1/report", "/blanks/P1"):
            expect(f"{client} reads {target}", proxy.ask(client, "GET", target).status, 403)


def other_messages(shop: Shop) -> None:
    """Tries targets, methods and lengths that nginx and persod could interpret differently."""
    proxy = shop.proxy
    for target in ("/", "/index.html", "/c/m1", "/c/m1/0", "/c/m1/1/2", "/batch/B1/x", "/blanks/"):
        expect(f"the office asks for {target}", proxy.ask("office", "GET", target).status, 404)
    for target in ("/c/office/../m1/901", "/c/%6d1/901", "//c/m1/901", "/c/m1/901%0a", "/c/m1/./901", "/c/m1/901?x=1", "/c/m1/901;x", "/c/m1/x/../901"):
        answer = proxy.ask("m1", "POST", target, RESET)
        expect(f"m1 asks {target}: {answer} is a refusal", answer.status in (400, 403, 404), True)
    expect("GET under a name", [proxy.ask(client, "GET", f"/c/{client}/902").status for client in ("m1", "office")], [403, 403])
    expect("POST to an account", proxy.ask("office", "POST", "/batch/B1", "{}").status, 403)
    expect("its largest body", proxy.post("m1", " " * MOST_OF_MACHINE).status, 400)
    expect("a byte more", proxy.post("m1", " " * (MOST_OF_MACHINE + 1)).status, 413)
    expect("a byte more in chunks", proxy.post("m1", chunks(" " * (MOST_OF_MACHINE + 1), 999), headers={"Transfer-Encoding": "chunked"}).status, 413)
    hidden = message("POST", "/c/office/903", f"{{{DISCARD}}}")
    for headers in ({"Content-Length": "5"}, {"Content-Length": "0", "Transfer-Encoding": "chunked"}, {"Content-Length": "+5"}, {"Transfer-Encoding": "chunked"}):
        shop.changes_nothing(f"smuggled with {headers}", lambda: proxy.post("m1", b"0\r\n\r\n" + hidden, headers=headers).status in DECIDED, False)
    kept = message("POST", "/c/m1/904", RESET).replace(b"close", b"keep-alive")
    shop.changes_nothing("pipelined after a reset", lambda: proxy.exchange("m1", kept + hidden).status, 200)


# ---- floods


def floods(shop: Shop) -> None:
    proxy = shop.proxy
    with_head = message("POST", "/c/m2/905", RESET)[: -len(RESET)]
    links = [proxy.connect("m2") for _ in range(4)]
    for link in links:
        link.sendall(with_head)
    time.sleep(0.2)
    expect("the fifth request at once", proxy.ask("m2", "POST", "/c/m2/906", RESET).status, 503)
    for link in links:
        link.close()
    expect("another machine meanwhile", proxy.post("m1", RESET).status, 200)
    begun = time.monotonic()
    for _ in range(200):
        proxy.exchange("m1", message("POST", "/c/m1/907", "x"))
    expect("200 requests of one machine take 1.4 s", time.monotonic() - begun > 1.4, True)


# ---- browsers, names and certificates


def pages(shop: Shop) -> None:
    proxy = shop.proxy
    for headers in [*BY_PAGES, {"Sec-Fetch-Site": "same-origin"}]:
        shop.changes_nothing(f"the office's browser posts with {headers}", lambda: proxy.post("office", f"{{{DISCARD}}}", headers=headers).status, 403)
        shop.changes_nothing(f"{headers} as m1", lambda: proxy.post("office", RESET, name="m1", headers=headers).status, 403)
        expect(f"m1's browser posts with {headers}", proxy.post("m1", RESET, headers=headers).status, 403)
    for headers in BY_PAGES:
        expect(f"the office's browser reads with {headers}", proxy.ask("office", "GET", "/batch/B1/report", headers=headers).status, 403)
    for host in ("evil.example", HOST, f"x.{NAME}", "", None):
        shop.changes_nothing(f"as {host}", lambda: closed(proxy.post("office", f"{{{DISCARD}}}", host=host)), True)
    for target in ("http://evil.example/c/office/910", "http://evil.example:80/c/m1/910"):
        shop.changes_nothing(f"as {target}", lambda: closed(proxy.ask("office", "POST", target, f"{{{DISCARD}}}")), True)
    if shop.tls:
        certificates(shop)


def closed(answer: Answer) -> bool:
    """Returns whether a request had no effect. nginx itself responds with 400 if the Host is missing."""
    return answer.status in (0, 400)


def certificates(shop: Shop) -> None:
    proxy = shop.proxy
    attack = message("POST", "/c/office/908", f"{{{DISCARD}}}")
    for who in (None, "other office"):
        shop.changes_nothing(f"the certificate of {who}", lambda: proxy.exchange(who, attack).status, 400)
    expect("m1 with a longer subject", proxy.exchange("m1 of a shop", message("POST", "/c/m1/909", RESET)).status, 403)
    for server in ("evil.example", None):
        try:
            proxy.exchange("office", attack, server=server)
            sys.exit(f"a handshake with {server} succeeded")
        except OSError:
            pass


# ---- restarts and large files


def idle(shop: Shop) -> None:
    """Opens twenty connections that send nothing, and checks that another request isn't delayed."""
    others = [shop.proxy.connect("m2") for _ in range(20)]
    begun = time.monotonic()
    expect("next to idle connections", shop.proxy.ask("office", "GET", "/blanks/P1").status, 200)
    expect("within four seconds", time.monotonic() - begun < 4, True)
    for other in others:
        other.close()


def restarts(shop: Shop) -> None:
    shop.server.kill()
    ask = message("POST", f"/c/m1/{shop.proxy.number('m1')}", RESET)
    expect("without a server", shop.proxy.exchange("m1", ask).status, 502)
    shop.restart()
    expect("with one again", shop.proxy.exchange("m1", ask), (200, b'{"result":"reset","session":0}'))


def repeated(shop: Shop, number: int, batch: str, body: bytes) -> Answer:
    """Repeats an import like a driver, and returns the response. A build without proofs takes minutes for 16 MiB."""
    for _ in range(10):
        answer = shop.proxy.ask("office", "POST", f"/c/office/{number}/batch/{batch}/P1", body)
        if answer.status < 500:
            break
    return answer


def largest(shop: Shop) -> None:
    text = batch_file(1)
    answer = repeated(shop, 2001, "B3", text + b"\n" * (MOST - len(text)))
    expect("a batch of 16 MiB", (answer.status, json.loads(answer.body)), (200, {"batch": "B3", "records": 1, "result": "created", "rows": 1}))
    answer = repeated(shop, 2002, "B4", b"\n" * (MOST + 1))
    expect("a byte more", (answer.status, b"nginx" in answer.body), (413, True))


# ---- the rule for the port

def as_user(name: str, does: Callable[[], object]) -> int:
    """Forks a process of this user, which exits with status 0 if the call succeeds. Returns its process id."""
    user = pwd.getpwnam(name).pw_uid
    child = os.fork()
    if child == 0:
        status = 1
        try:
            os.setuid(user)
            does()
            status = 0
        finally:
            os._exit(status)
    return child


def listen() -> None:
    with socket.create_server((served.HOST, 8807)) as server:
        while True:
            server.accept()[0].close()


def connect() -> None:
    with socket.socket() as link:
        link.settimeout(0.5)
        link.connect((served.HOST, 8807))


def reached(rule: str) -> None:
    """Loads a rule in this namespace. Prints each pair of users if the first can then connect to a listener of the second."""
    for words in (("ip", "link", "set", "lo", "up"), ("nft", "-f", rule), ("nft", "-f", rule)):
        subprocess.run(words, check=True)
    for server in ("daemon", "nobody", "root"):
        listener = as_user(server, listen)
        time.sleep(0.3)
        for client in ("www-data", "nobody", "root", "daemon"):
            if os.waitpid(as_user(client, connect), 0)[1] == 0:
                print(f"{client} reaches {server}", flush=True)
        os.kill(listener, signal.SIGKILL)
        os.waitpid(listener, 0)


def port_rule() -> str:
    """Tries the rule in a network namespace of its own. The user daemon replaces the user persod, which may not exist here."""
    lacking = [name for name in ("nft", "ip", "unshare") if not shutil.which(name)] + ["root"] * (os.geteuid() != 0)
    if lacking or subprocess.run(["unshare", "--net", "true"], capture_output=True).returncode:
        return f"the rule for the port wasn't tried; missing: {' and '.join(lacking) or 'namespaces'}"
    with tempfile.TemporaryDirectory() as name:
        text = text_of("persod.nft").replace('"persod"', '"daemon"')
        for removed, wanted in ((None, ["www-data reaches daemon", "daemon reaches daemon"]), ("dport", None), ("sport", None)):
            rule = pathlib.Path(name) / "persod.nft"
            rule.write_text("".join(line for line in text.splitlines(keepends=True) if not removed or removed not in line))
            ran = subprocess.run(["unshare", "--net", sys.executable, "-B", __file__, IN_NAMESPACE, rule], capture_output=True, text=True, timeout=300)
            expect(f"{IN_NAMESPACE} {removed}", (ran.returncode, ran.stderr), (0, ""))
            expect("more connections pass without a line of the rule", len(ran.stdout.splitlines()) > 2, bool(removed))
            expect("who reaches whom through the port", ran.stdout.splitlines(), wanted or ran.stdout.splitlines())
    return "the rule for the port lets only nginx and persod connect, and only persod respond"


# ---- the runs


def attacks(shop: Shop) -> None:
    """Runs all tests of a file, except the long ones."""
    stock(shop.proxy)
    for part in (honest, frees_a_machine, acts_as_office, asks_own_remake, other_names, other_messages, pages, floods):
        part(shop)


def tried(program: str, file: str, text: str, parts: tuple[Callable[[Shop], None], ...], certificates: Certificates) -> None:
    with tempfile.TemporaryDirectory() as name:
        shop = Shop(program, file, text, pathlib.Path(name), certificates)
        try:
            for part in parts:
                part(shop)
        finally:
            shop.stop()


def two_megabytes(shop: Shop) -> None:
    """Imports a batch file that is larger than nginx's default buffers and limit."""
    expect("a batch of 2 MB", repeated(shop, 2000, "B2", batch_file(1) + b"\n" * 2_000_000).status, 200)
    log = (shop.folder / "error.log").read_text()
    expect("no batch file in a temporary file", "buffered to a temporary file" in log, False)


def without_each_line(program: str, file: str, certificates: Certificates) -> int:
    """Removes each rule of a file in turn, and expects a fault. Returns the number of rules."""
    lines, count = text_of(file).splitlines(keepends=True), 0
    for place, line in enumerate(lines):
        if ";" not in line or line.startswith("#") or "listen " in line:
            continue
        text = "".join(lines[:place] + lines[place + 1 :])
        try:
            tried(program, file, text, (attacks, two_megabytes), certificates)
        except (SystemExit, OSError, ValueError, KeyError) as fault:
            found = " ".join(str(fault).split())
        else:
            found = ""
        print(f"{file}:{place + 1} without `{line.strip()}`: {found[:160] or 'no fault'}", flush=True)
        expect(f"{file} without line {place + 1}: a fault", bool(found), not WITHOUT_EFFECT.search(line))
        count += 1
    return count


def main() -> None:
    if sys.argv[1] == IN_NAMESPACE:
        return reached(sys.argv[2])
    for name in ("nginx", "openssl"):
        if not shutil.which(name):
            sys.exit(f"{name} isn't on this machine: apt-get install {name}")
    rule = port_rule()
    with tempfile.TemporaryDirectory() as folder:
        certificates = Certificates(pathlib.Path(folder))
        for file in FILES:
            tried(sys.argv[1], file, text_of(file), (attacks, idle, restarts, two_megabytes, largest), certificates)
        print(f"{' and '.join(FILES)}: honest requests and batches up to 16 MiB pass, no attack changes anything; {rule}")
        if "--without" in sys.argv[2:]:
            count = sum(without_each_line(sys.argv[1], file, certificates) for file in FILES)
            print(f"without each of {count} lines something goes wrong, except for those that state a default")


if __name__ == "__main__":
    main()
