"""nginx as a server that answers every request by the same bytes."""
import os
import subprocess
import time

from served.server import free_port

CONFIGURATION = """daemon off;
pid nginx.pid;
error_log error.log;
worker_processes 4;
events { worker_connections 256; }
http {
    access_log off;
    client_body_temp_path body_files;
    proxy_temp_path proxied;
    fastcgi_temp_path fastcgi;
    uwsgi_temp_path uwsgi;
    scgi_temp_path scgi;
    server_tokens off;
    keepalive_requests 100;
    server {
        listen 127.0.0.1:%d;
        default_type application/x-ofx;
        location / { return 200 "%s"; }
    }
}
"""


class Fixed:
    """A run of nginx with four processes, which ends a connection after a hundred requests, as the bank does."""

    def __init__(self, folder, answer):
        self.port = free_port()
        with open(os.path.join(folder, "nginx.conf"), "wb") as f:
            f.write(CONFIGURATION.encode() % (self.port, answer))
        words = ["nginx", "-p", folder + "/", "-c", "nginx.conf"]
        path = os.environ.get("PATH", "") + ":/usr/sbin"
        self.child = subprocess.Popen(words, cwd=folder, env={**os.environ, "PATH": path}, stderr=subprocess.DEVNULL)
        while not os.path.exists(os.path.join(folder, "nginx.pid")):
            if self.child.poll() is not None:
                raise SystemExit("nginx ended with status %d" % self.child.returncode)
            time.sleep(0.02)

    def url(self):
        return "http://127.0.0.1:%d/ofx" % self.port

    def __enter__(self):
        return self

    def __exit__(self, *_):
        self.child.terminate()
        self.child.wait()
