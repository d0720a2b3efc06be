#!/usr/bin/env python3
"""Runs `nostr-mirror sync` through a tunnel: Debian's stunnel4 by `examples/stunnel.conf`, and nginx, which ends TLS for a relay.

    tests/tunnel.py [PATH]      (PATH of the program; else the proved build)

nginx has certificates of an authority that is made here, and knows its relay by the host and the path that a handshake names. What
it serves comes through the tunnel where the settings name both. Another host, another path, and the tunnel's own address as the
host get a status. Where the certificate is for another name or of another authority, and where nothing listens behind the tunnel,
the connection is closed; it is refused where there is no tunnel, and gets a status where TLS itself is named. None of these
reaches the relay. Then the same comes through `examples/nginx.conf`. Where one of the programs isn't installed, it says so, and does
nothing.
"""
import atexit
import os
import re
import shutil
import socket
import subprocess
import sys
import tempfile
import time

from told import ROOT, begin, by_id, event, program, read, same, settings, start, written

# nginx is in a folder of administrators.
PLACES = os.environ.get("PATH", os.defpath) + os.pathsep + "/usr/sbin"
HOST, OTHER = "relay.example.com", "other.example.com"

NGINX = """daemon off;
master_process off;
pid nginx.pid;
error_log nginx.log;
events {}
http {
    access_log off;
    client_body_temp_path body;
    proxy_temp_path proxy;
    fastcgi_temp_path fastcgi;
    uwsgi_temp_path uwsgi;
    scgi_temp_path scgi;
%s}
"""
# Who has no name here is told that another server is meant.
SERVER = """    server {
        listen 127.0.0.1:%(port)d ssl default_server;
        ssl_certificate %(certificate)s.pem;
        ssl_certificate_key %(certificate)s.key;
        return 421;
    }
    server {
        listen 127.0.0.1:%(port)d ssl;
        server_name relay.example.com;
        ssl_certificate %(certificate)s.pem;
        ssl_certificate_key %(certificate)s.key;
        location = /nostr {
            proxy_pass http://127.0.0.1:%(relay)d;
            proxy_http_version 1.1;
            proxy_set_header Upgrade $http_upgrade;
            proxy_set_header Connection "upgrade";
        }
        location / {
            return 404;
        }
    }
"""


def found(*names):
    """The first of these programs that there is."""
    return next(filter(None, (shutil.which(name, path=PLACES) for name in names)), None)


def openssl(folder, *words):
    subprocess.run(["openssl", *words], cwd=folder, check=True, capture_output=True)


def certify(folder, authority, name, host):
    """Makes a key and a certificate for a host, by an authority, which is made where it isn't there."""
    new = "-newkey ec -pkeyopt ec_paramgen_curve:P-256 -nodes".split()
    if not os.path.exists(os.path.join(folder, authority + ".pem")):
        openssl(folder, "req", "-x509", *new, "-keyout", authority + ".key", "-out", authority + ".pem", "-days", "2",
                "-subj", "/CN=" + authority)
    openssl(folder, "req", *new, "-keyout", name + ".key", "-out", name + ".csr", "-subj", "/CN=" + host)
    with open(os.path.join(folder, name + ".ext"), "w") as text:
        text.write("subjectAltName=DNS:%s\n" % host)
    openssl(folder, "x509", "-req", "-in", name + ".csr", "-CA", authority + ".pem", "-CAkey", authority + ".key",
            "-CAcreateserial", "-days", "2", "-extfile", name + ".ext", "-out", name + ".pem")


def free_ports(count):
    """Ports that nobody has."""
    taken = [socket.create_server(("127.0.0.1", 0)) for _ in range(count)]
    ports = [it.getsockname()[1] for it in taken]
    for it in taken:
        it.close()
    return ports


def stunnel_conf(folder, ways):
    """The settings of the example, with these ways from a port to a port in place of its own."""
    with open(os.path.join(ROOT, "examples", "stunnel.conf")) as text:
        head, section = text.read().split("[%s]\n" % HOST)
    same([section.count("127.0.0.1:7001"), section.count(HOST + ":443")], [1, 1])
    section = re.sub("(?m)^CAfile = .*$", "CAfile = %s" % os.path.join(folder, "authority.pem"), section)
    # Only root can become another user.
    whole = re.sub("(?m)^set[ug]id = .*\n", "", head)
    for number, (own, far) in enumerate(ways):
        way = section.replace("127.0.0.1:7001", "127.0.0.1:%d" % own).replace(HOST + ":443", "127.0.0.1:%d" % far)
        whole += "[%s %d]\n%s" % (HOST, number, way)
    path = os.path.join(folder, "stunnel.conf")
    with open(path, "w") as text:
        text.write(whole)
    return path


def example_server(port, certificate, relay):
    """The server of the example, at this port and with this certificate, in front of this relay."""
    with open(os.path.join(ROOT, "examples", "nginx.conf")) as text:
        server = text.read()
    for old, new in (("listen 443 ssl", "listen 127.0.0.1:%d ssl" % port), ("127.0.0.1:7447;", "127.0.0.1:%d;" % relay),
                     ("/etc/ssl/relay.example.com.pem", certificate + ".pem"),
                     ("/etc/ssl/relay.example.com.key", certificate + ".key")):
        same(server.count(old), 1)
        server = server.replace(old, new)
    return server


def run_until_up(folder, ports, *words):
    """Starts a program, and waits until it listens at these ports."""
    with open(os.path.join(folder, os.path.basename(words[0]) + ".out"), "w") as log:
        child = subprocess.Popen(words, cwd=folder, stdout=log, stderr=log)
    atexit.register(child.kill)
    until = time.monotonic() + 30
    for port in ports:
        while True:
            try:
                socket.create_connection(("127.0.0.1", port)).close()
                break
            except OSError:
                if child.poll() is not None or time.monotonic() > until:
                    with open(log.name) as text:
                        raise SystemExit("%s doesn't listen at %d\n%s" % (words[0], port, text.read()))
                time.sleep(0.05)
    return child


def through(path, folder, stunnel, nginx):
    theirs = [event(1000 + n, "theirs") for n in range(150)]
    written(os.path.join(folder, "relay.jsonl"), theirs)
    relay, port = start(path, "serve", settings(folder, "relay", listen="127.0.0.1:0", conns=4))
    certify(folder, "authority", "right", HOST)
    certify(folder, "authority", "other", OTHER)
    certify(folder, "stranger", "strange", HOST)
    far, near, nobody = free_ports(3), free_ports(5), free_ports(1)[0]
    by_example, of_example = free_ports(1)[0], near.pop()
    servers = zip(far, ("right", "other", "strange"))
    with open(os.path.join(folder, "nginx.conf"), "w") as text:
        text.write(NGINX % ("".join(SERVER % {"port": it, "certificate": name, "relay": port} for it, name in servers)
                            + example_server(by_example, "right", port)))
    ways = list(zip(near, far + [nobody])) + [(of_example, by_example)]
    children = [run_until_up(folder, far + [by_example], nginx, "-p", folder, "-e", "nginx.log", "-c", "nginx.conf"),
                run_until_up(folder, near + [of_example], stunnel, stunnel_conf(folder, ways))]
    tunnels = ["127.0.0.1:%d" % it for it in near]
    named = {"host": HOST, "path": "/nostr", "via": tunnels[0]}
    # Each entry, the name by which it is told, and why it fails.
    entries = [(named, HOST, None), (tunnels[0], tunnels[0], "status 421"),
               ("ws://%s/nostr" % tunnels[0], tunnels[0], "status 421"), (dict(named, host=OTHER), OTHER, "status 421"),
               (dict(named, path="/other"), HOST, "status 404"), ({"host": HOST, "via": tunnels[0]}, HOST, "status 404")]
    entries += [(dict(named, via=it), HOST, "closed") for it in tunnels[1:]]
    # Where there is no tunnel, and where TLS is spoken.
    entries += [(dict(named, via="127.0.0.1:%d" % it), HOST, why)
                for it, why in ((nobody, "connection refused"), (far[0], "status 400"))]
    mirror = begin(path, "sync", settings(folder, "mirror", relays=[it[0] for it in entries]), "--progress", "--strict")
    out, told = mirror.communicate(timeout=60)
    lines = ["relay 0 need 150"] + ["relay %d failed 1" % it for it in range(1, len(entries))]
    same(out.splitlines(), lines + ["least 150", "group 0", "given 150", "missed 0", "left 0"])
    whys = ["relay %d %s: %s" % (number, name, why) for number, (_entry, name, why) in enumerate(entries) if why]
    same([line for line in whys if line not in told.splitlines()], [])
    same(mirror.returncode, 3)
    same(by_id(read(os.path.join(folder, "mirror.jsonl"))), by_id(theirs))
    entry = {"host": HOST, "path": "/", "via": "127.0.0.1:%d" % of_example}
    mirror = begin(path, "sync", settings(folder, "second", relays=[entry]), "--strict")
    out, _errors = mirror.communicate(timeout=60)
    same([out.splitlines()[0], mirror.returncode], ["relay 0 need 150", 0])
    same(by_id(read(os.path.join(folder, "second.jsonl"))), by_id(theirs))
    # Their sessions and their fetching, and nobody else.
    same(relay.communicate(timeout=60)[0], "served 4\nevents 150\n")
    for child in children:
        child.terminate()
        child.wait(30)


def main():
    programs = {"stunnel4": found("stunnel4", "stunnel"), "nginx": found("nginx"), "openssl": found("openssl")}
    missing = [name for name, place in programs.items() if place is None]
    if missing:
        print("tunnel.py was left out: not installed: %s" % ", ".join(missing), file=sys.stderr)
        return
    with tempfile.TemporaryDirectory() as folder:
        through(program(), folder, programs["stunnel4"], programs["nginx"])
    print("through a tunnel: as wanted")


if __name__ == "__main__":
    main()
