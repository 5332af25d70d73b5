"""What the checks of fronts share: nginx with the configurations of examples/, on ports and with folders
of the check, and calls through it.

It is no check of its own, so it may not be executed. A check that uses it needs nginx, openssl and htpasswd.
"""
import base64
import http.client
import json
import os
import re
import shutil
import signal
import ssl
import subprocess
import sys
import time

from lib import records, serving

# What stands around a file of conf.d in Debian's nginx.conf, with all files in a folder of the check.
AROUND = """user www-data;
worker_processes 1;
pid {folder}/nginx.pid;
error_log {folder}/error.log;
daemon off;
events {{ worker_connections 512; }}
http {{
    include /etc/nginx/mime.types;
    access_log off;
    client_body_temp_path {folder}/body;
    proxy_temp_path {folder}/proxy;
    fastcgi_temp_path {folder}/fastcgi;
    uwsgi_temp_path {folder}/uwsgi;
    scgi_temp_path {folder}/scgi;
    include {folder}/swarm.conf;
}}
"""
# What most calls of these checks ask for: how many tasks the pool has.
BODY = b'{"pool":"default"}'
# The page whose commands make the files of a front.
PAGE = "docs/operating.md"


def text_of(path, changes):
    """A file of the repository, with each of these texts changed."""
    with open(os.path.join(records.TOP, path), encoding="utf-8") as it:
        return changed(it.read(), changes, path)


def changed(text, changes, name="the configuration"):
    """A text with each of these texts changed; one that isn't there is an error."""
    for old, new in changes.items():
        if old not in text:
            sys.exit(f"{name} has no {old}")
        text = text.replace(old, new)
    return text


def lab_front(folder, server_port, port, bots_port=None, board_port=None):
    """examples/nginx.conf before a server on a port, with its files in a folder and listening on other ports.

    What it includes of examples/ is copied into the folder. Without a port of boards the server stands for them.
    """
    shutil.copy(os.path.join(records.TOP, "examples", "swarm-proxy.conf"), folder)
    changes = {
        "/etc/swarm/": f"{folder}/",
        "/etc/nginx/snippets/": f"{folder}/",
        "/var/www/swarm": folder,
        "listen 443 ssl": f"listen {serving.HOST}:{port} ssl",
        "listen 8443 ssl": f"listen {serving.HOST}:{bots_port or serving.free_port()} ssl",
        "map $host $swarm_board {\n    default 127.0.0.1:8080": f"map $host $swarm_board {{\n    default 127.0.0.1:{board_port or server_port}",
        "127.0.0.1:8080": f"127.0.0.1:{server_port}",
    }
    return text_of("examples/nginx.conf", changes)


def bot_front(folder, lab_port, port):
    """examples/bot-front.conf before a lab's port for certificates, with its files in a folder and listening on a port."""
    changes = {"/etc/swarm/": f"{folder}/", "server swarm.lab:8443": f"server {serving.HOST}:{lab_port}", "listen 127.0.0.1:8080": f"listen {serving.HOST}:{port}"}
    return text_of("examples/bot-front.conf", changes)


def make_certificate(folder):
    """The certificates of a front and of its authority, and an empty file of callers, as docs/operating.md makes them."""
    run_commands(folder, [it for it in commands("-keyout /etc/swarm/front.key") if not it.startswith("htpasswd ")])
    run_commands(folder, commands("-keyout ca.key"))


def write_callers(folder, passwords):
    """Adds callers to that file, each with its password, by the line of docs/operating.md that does so."""
    line = next(it for it in commands("-keyout /etc/swarm/front.key") if it.startswith("htpasswd "))
    for name, password in passwords.items():
        # (-i reads the password from the standard input, without a question)
        run_commands(folder, [line.replace("htpasswd ", "htpasswd -i ").replace(" ana", f" {name}")], password)


def commands(words):
    """The lines of the one block of commands in docs/operating.md that has these words, but for those that
    install packages and those that speak to the nginx of the system."""
    found = [it for it in re.findall(r"^```sh\n(.*?)^```$", text_of(PAGE, {}), re.M | re.S) if words in it]
    if len(found) != 1:
        sys.exit(f"{PAGE} has {len(found)} blocks with {words}")
    return [it for it in found[0].splitlines() if not it.startswith(("apt-get ", "nginx ", "systemctl "))]


def checkout_in(folder):
    """The folder within it that stands for that of the repository."""
    return os.path.join(folder, "checkout")


def run_commands(folder, lines, given=None):
    """Runs commands of docs/operating.md with a folder in place of /etc/swarm, /etc/nginx and /var/www/swarm, in
    the one within it that stands for that of the repository."""
    checkout = checkout_in(folder)
    if not os.path.exists(checkout):
        os.makedirs(checkout)
        os.symlink(os.path.join(records.TOP, "examples"), os.path.join(checkout, "examples"))
        for it in ("snippets", "conf.d"):
            os.makedirs(os.path.join(folder, "nginx", it))
    script = changed_paths("\n".join(lines), {"/etc/swarm": folder, "/etc/nginx": f"{folder}/nginx", "/var/www/swarm": folder})
    done = subprocess.run(["sh", "-euc", script], cwd=checkout, input=given, capture_output=True, text=True, timeout=60, check=False)
    if done.returncode:
        sys.exit(f"{PAGE}: the commands\n{script}\nend with status {done.returncode}:\n{done.stdout}{done.stderr}")


def changed_paths(script, folders):
    """A script with these folders changed; one that has another path of the system would change the system."""
    rest = script
    for old, new in folders.items():
        script, rest = script.replace(old, new), rest.replace(old, "")
    if re.search(r"/(etc|lib|opt|srv|usr|var)/", rest):
        sys.exit(f"{PAGE} has a path that isn't one of {list(folders)}:\n{script}")
    return script


class Nginx:
    """nginx with a configuration, in a folder, which `nginx -t` has to accept; it listens once it is entered."""

    def __init__(self, folder, configuration, port):
        self.folder, self.port, self.process = folder, port, None
        self.words = ["nginx", "-p", folder, "-c", f"{folder}/nginx.conf"]
        for name, text in (("swarm.conf", configuration), ("nginx.conf", AROUND.format(folder=folder))):
            with open(os.path.join(folder, name), "w", encoding="utf-8") as it:
                it.write(text)
        # (nginx reads the callers as the user of its workers)
        os.chmod(folder, 0o755)

    def test(self):
        """The status of `nginx -t`, and what it says."""
        tried = subprocess.run([*self.words, "-t"], capture_output=True, timeout=20, check=False)
        return tried.returncode, tried.stderr.decode()

    def __enter__(self):
        status, text = self.test()
        if status:
            raise RuntimeError(f"nginx -t ends with status {status}: {text}")
        self.process = subprocess.Popen(self.words, stdin=subprocess.DEVNULL, stdout=subprocess.DEVNULL, stderr=subprocess.DEVNULL)
        try:
            serving.wait_until_listening(self.port, self.process)
        except RuntimeError:
            self.stop()
            raise
        return self

    def __exit__(self, *_):
        self.stop()

    def reload(self):
        """Reads the configuration again, with the files that it names, and waits until the workers are new ones."""
        before, end = self.workers(), time.monotonic() + 20
        self.process.send_signal(signal.SIGHUP)
        while before & self.workers() or not self.workers():
            if time.monotonic() > end:
                raise RuntimeError("nginx doesn't reload")
            time.sleep(0.01)

    def workers(self):
        with open(f"/proc/{self.process.pid}/task/{self.process.pid}/children", encoding="ascii") as it:
            return set(it.read().split())

    def stop(self):
        self.process.terminate()
        self.process.wait(20)


class Front:
    """A front that is asked over TLS, by callers with passwords, or with the certificate and key of two files."""

    def __init__(self, port, passwords=None, certificate=None):
        self.port, self.passwords = port, passwords or {}
        self.context = ssl.create_default_context()
        self.context.check_hostname = False
        self.context.verify_mode = ssl.CERT_NONE
        if certificate:
            self.context.load_cert_chain(*certificate)

    def connect(self, source=None):
        address = (source, 0) if source else None
        return http.client.HTTPSConnection(serving.HOST, self.port, timeout=60, context=self.context, source_address=address)

    def ask(self, who, path, body=BODY, fields=(), method="POST", chunked=False, password=None, source=None):
        """The status and the body of a call through the front; as JSON where it is."""
        link = self.connect(source)
        link.putrequest(method, path, skip_accept_encoding=True, skip_host="Host" in dict(fields))
        if who:
            pair = f"{who}:{password or self.passwords[who]}"
            link.putheader("Authorization", "Basic " + base64.b64encode(pair.encode()).decode())
        for name, value in fields:
            link.putheader(name, value)
        if chunked:
            link.putheader("Transfer-Encoding", "chunked")
        else:
            link.putheader("Content-Length", str(len(body)))
        link.endheaders()
        try:
            link.send(b"%x\r\n%s\r\n0\r\n\r\n" % (len(body), body) if chunked else body)
        except OSError:
            # (a body that is refused by its length isn't read to its end)
            pass
        reply = link.getresponse()
        content = reply.read()
        link.close()
        try:
            return reply.status, json.loads(content)
        except ValueError:
            return reply.status, None
