"""nginx with a certificate of its own making, which takes TLS off the connections and hands them on to the bank. Its server is
the one of package/nginx.conf, but for the paths and the ports."""
import os
import re
import subprocess
import time

from customers.tools import path_of, said
from served.server import MAX_SECONDS, Wrong, free_port

NEEDS = "nginx", "openssl"
SERVER = os.path.join(os.path.dirname(os.path.abspath(__file__)), "..", "..", "package", "nginx.conf")
CONFIGURATION = """daemon off;
pid nginx.pid;
error_log error.log;
events { worker_connections 256; }
http {
    access_log off;
    client_body_temp_path body;
    proxy_temp_path proxied;
    fastcgi_temp_path fastcgi;
    uwsgi_temp_path uwsgi;
    scgi_temp_path scgi;
    include server.conf;
}
"""


def server(port, bank_port):
    """The server of package/nginx.conf at this port, with the certificate that is beside it."""
    with open(SERVER) as f:
        text = f.read()
    for old, new in ((r"^ *listen \[::\].*\n", ""), (r"listen 443 ", "listen 127.0.0.1:%d " % port),
                     (r"/etc/letsencrypt/live/bank.example/fullchain.pem", "certificate.pem"),
                     (r"/etc/letsencrypt/live/bank.example/privkey.pem", "key.pem"), (r"bank\.example", "localhost"),
                     (r"127\.0\.0\.1:8080", "127.0.0.1:%d" % bank_port)):
        text, count = re.subn(old, new, text, flags=re.MULTILINE)
        if count == 0:
            raise Wrong("package/nginx.conf has nothing like %s" % old)
    return text


class Front:
    def __init__(self, folder, bank_port):
        self.folder, self.port = folder, free_port()
        said(["openssl", "req", "-x509", "-newkey", "rsa:2048", "-nodes", "-keyout", "key.pem", "-out",
              "certificate.pem", "-days", "2", "-subj", "/CN=localhost", "-addext",
              "subjectAltName=DNS:localhost"], folder)
        for name, text in (("nginx.conf", CONFIGURATION), ("server.conf", server(self.port, bank_port))):
            with open(os.path.join(folder, name), "w") as f:
                f.write(text)
        with open(os.path.join(folder, "told"), "wb") as told:
            self.child = subprocess.Popen([path_of("nginx"), "-p", folder + "/", "-c", "nginx.conf"], cwd=folder,
                                          stdin=subprocess.DEVNULL, stdout=told, stderr=told)
        self.await_listening()

    def await_listening(self):
        end = time.monotonic() + MAX_SECONDS
        while not os.path.exists(os.path.join(self.folder, "nginx.pid")):
            if self.child.poll() is not None or time.monotonic() > end:
                self.stop()
                with open(os.path.join(self.folder, "told")) as f:
                    raise Wrong("nginx doesn't run: %s" % f.read()[-300:])
            time.sleep(0.02)

    def url(self):
        return "https://localhost:%d/ofx" % self.port

    def certificate(self):
        return os.path.join(self.folder, "certificate.pem")

    def stop(self):
        if self.child.poll() is None:
            self.child.terminate()
        self.child.wait()
