"""Web servers on the loopback that run `ill-web`: lighttpd, Apache, busybox httpd, and nginx by fcgiwrap, with a login.

nginx stands before another server, too. Each has its files in a folder, and its port. `ended` stops them.
"""
import contextlib
import os
import shutil
import signal
import socket
import subprocess

from ill import harness
from ill.driving import patiently

# The users with their passwords, and then the configurations of the servers.
USERS = {"anna": "secret", "bert": "hidden"}
LIGHTTPD = """\
server.modules = ("mod_auth", "mod_authn_file", "mod_cgi"{modules})
server.document-root = "{folder}/www"
server.port = {port}
server.bind = "127.0.0.1"
mimetype.assign = (".html" => "text/html")
server.errorlog = "{folder}/lighttpd.log"
server.breakagelog = "{folder}/breakage.log"
auth.backend = "htpasswd"
auth.backend.htpasswd.userfile = "{folder}/users"
auth.require = ("/ill/" => ("method" => "basic", "realm" => "ill", "require" => "valid-user"))
$HTTP["url"] =~ "^/ill/" {{ cgi.assign = ("" => "") }}
{more}"""
TLS = 'ssl.engine = "enable"\nssl.pemfile = "{folder}/both.pem"\n'
APACHE = """\
ServerName {host}
ServerRoot {folder}
User www-data
Group www-data
PidFile {folder}/apache.pid
ErrorLog {folder}/apache.log
Listen 127.0.0.1:{port}
{modules}
ScriptSock {folder}/apache.socket
SSLEngine on
SSLCertificateFile {folder}/both.pem
ScriptAlias /ill/ {folder}/www/ill/
<Directory {folder}/www/ill>
    AuthType Basic
    AuthName ill
    AuthUserFile {folder}/users
    Require valid-user
    SSLRequireSSL
    LimitRequestBody 4096
</Directory>
"""
APACHE_MODULES = ("mpm_event", "authn_core", "authn_file", "authz_core", "authz_user", "auth_basic", "alias", "cgid", "ssl")
NGINX = """\
daemon off;
pid {folder}/nginx.pid;
error_log {folder}/nginx.log;
events {{}}
http {{
  access_log off;
  client_body_temp_path {folder}/nginx.body;
  proxy_temp_path {folder}/nginx.proxy;
  fastcgi_temp_path {folder}/nginx.fastcgi;
  uwsgi_temp_path {folder}/nginx.uwsgi;
  scgi_temp_path {folder}/nginx.scgi;
  server {{
    listen 127.0.0.1:{port}{ssl};
    {location}
  }}
}}
"""
NGINX_TLS = " ssl; ssl_certificate {folder}/both.pem; ssl_certificate_key {folder}/both.pem"
NGINX_PROXY = "location / {{ proxy_pass http://127.0.0.1:{behind}; }}"
NGINX_SCRIPTS = """\
location /ill/ {{
      auth_basic ill;
      auth_basic_user_file {folder}/users;
      client_max_body_size 4096;
      include /etc/nginx/fastcgi_params;
      fastcgi_param SCRIPT_FILENAME {folder}/www$fastcgi_script_name;
      fastcgi_pass unix:{folder}/fcgiwrap.socket;
    }}"""


def has_tls():
    """Returns true if lighttpd has its module for TLS, which is a package of its own."""
    return any(os.path.exists(f"{folder}/lighttpd/mod_openssl.so") for folder in ("/usr/lib", "/usr/lib64", "/usr/local/lib"))


def is_there(name):
    """Returns true if a program is installed, for root or for all."""
    return shutil.which(name, path=f"{os.environ['PATH']}:/usr/sbin:/sbin") is not None


def free_port():
    """Returns a port of the loopback that no process has."""
    with socket.socket() as one:
        one.bind(("127.0.0.1", 0))
        return one.getsockname()[1]


def answers(port):
    """Returns true if a server listens at a port."""
    try:
        socket.create_connection(("127.0.0.1", port), 1).close()
    except OSError:
        return False
    return True


class Servers:
    """Web servers over one folder. A script in `www/ill` is a page."""

    def __init__(self, folder, web):
        """Makes the folder of pages. `web` is the path of `ill-web`; if `reads_rest` is set, scripts read the rest of a
        form."""
        self.folder, self.web, self.running, self.reads_rest = folder, web, [], False
        os.makedirs(f"{folder}/www/ill")

    def script(self, name, *words, before=""):
        """Writes the script of a page, which runs `ill-web` with these words after other commands."""
        path = f"{self.folder}/www/ill/{name}"
        quoted = " ".join("'" + word.replace("'", "'\\''") + "'" for word in [self.web, *words])
        last = f"{quoted}\ncat > /dev/null" if self.reads_rest else f"exec {quoted}"
        harness.write(path + ".new", f"#!/bin/sh\n{before}{last}\n")
        os.chmod(path + ".new", 0o755)
        os.replace(path + ".new", path)

    def limited_script(self, name, *words):
        """Writes the script of a page that may write no byte to a file."""
        self.script(name, *words, before="trap '' XFSZ\nulimit -f 0\n")

    def lighttpd(self, has_tls=False):
        """Begins lighttpd, and returns its port."""
        self._users()
        port, path = free_port(), f"{self.folder}/lighttpd{len(self.running)}.conf"
        more = TLS.format(folder=self.folder) if has_tls else ""
        harness.write(path, LIGHTTPD.format(folder=self.folder, port=port, more=more,
                                            modules=', "mod_openssl"' if has_tls else ""))
        return self._listen(port, ["lighttpd", "-D", "-f", path])

    def apache(self, host):
        """Begins Apache with TLS at a host, and returns its port. Begun by root, it runs scripts as `www-data`.

        It breaks off the reply to a form that is not read, so later scripts read the rest.
        """
        self._users()
        self.reads_rest = True
        port, path = free_port(), f"{self.folder}/apache.conf"
        modules = "\n".join(f"LoadModule {name}_module /usr/lib/apache2/modules/mod_{name}.so" for name in APACHE_MODULES)
        harness.write(path, APACHE.format(folder=self.folder, host=host, port=port, modules=modules))
        return self._listen(port, ["apache2", "-D", "FOREGROUND", "-f", path])

    def busybox(self):
        """Begins busybox httpd, and returns its port. Its scripts are in `cgi-bin`."""
        port, path = free_port(), f"{self.folder}/httpd.conf"
        harness.write(path, "".join(f"/cgi-bin:{name}:{password}\n" for name, password in USERS.items()))
        harness.remove(f"{self.folder}/www/cgi-bin")
        os.symlink("ill", f"{self.folder}/www/cgi-bin")
        return self._listen(port, ["busybox", "httpd", "-f", "-p", f"127.0.0.1:{port}", "-h", f"{self.folder}/www", "-c", path])

    def proxy(self, behind, has_tls=False):
        """Begins nginx before another server, whose Host it sends in place of the browser's. Returns its port."""
        return self._nginx(NGINX_PROXY.format(behind=behind), has_tls)

    def nginx(self):
        """Begins nginx with TLS, and fcgiwrap, which runs its scripts. Returns the port.

        fcgiwrap breaks off the reply to a form that is not read, too.
        """
        self._users()
        self.reads_rest = True
        place = f"{self.folder}/fcgiwrap.socket"
        self._begin(["fcgiwrap", "-f", "-c", "4", "-s", f"unix:{place}"], lambda: os.path.exists(place))
        os.chmod(place, 0o666)  # the workers of nginx are not root
        return self._nginx(NGINX_SCRIPTS.format(folder=self.folder), True)

    def _nginx(self, location, has_tls):
        """Begins nginx with a location, and returns its port."""
        port, path = free_port(), f"{self.folder}/nginx{len(self.running)}.conf"
        ssl = NGINX_TLS.format(folder=self.folder) if has_tls else ""
        harness.write(path, NGINX.format(folder=self.folder, port=port, ssl=ssl, location=location))
        return self._listen(port, ["nginx", "-c", path])

    def certificate(self, name):
        """Makes a certificate of one's own for a host."""
        key, certificate = f"{self.folder}/key.pem", f"{self.folder}/certificate.pem"
        subprocess.run(["openssl", "req", "-x509", "-newkey", "rsa:2048", "-nodes", "-days", "2", "-subj", f"/CN={name}",
                        "-addext", f"subjectAltName=DNS:{name}", "-keyout", key, "-out", certificate],
                       check=True, capture_output=True)
        harness.write(f"{self.folder}/both.pem", harness.read(key) + harness.read(certificate))

    def _users(self):
        """Writes the file of logins, which lighttpd and Apache read alike."""
        lines = [f"{name}:{encoded(password)}\n" for name, password in USERS.items()]
        harness.write(f"{self.folder}/users", "".join(lines))

    def _listen(self, port, words):
        """Begins a server, waits until it answers at a port, and returns the port."""
        self._begin(words, lambda: answers(port))
        return port

    def _begin(self, words, is_ready):
        """Begins a server, and waits until it is ready."""
        path = f"{os.environ['PATH']}:/usr/sbin:/sbin"
        log = open(f"{self.folder}/server{len(self.running)}.log", "wb")
        # A session of its own: busybox httpd ends with its scripts, and fcgiwrap leaves processes behind.
        process = subprocess.Popen(words, stdout=log, stderr=log, stdin=subprocess.DEVNULL, start_new_session=True,
                                   env={**os.environ, "PATH": path})
        log.close()
        self.running.append(process)
        harness.expect(patiently(lambda: is_ready() or process.poll() is not None, 20) and process.poll() is None,
                       f"{words[0]} does not run: {harness.short(harness.read(log.name))}")

    def ended(self):
        """Stops all servers, each with the processes of its session."""
        for process in self.running:
            with contextlib.suppress(ProcessLookupError):
                os.killpg(process.pid, signal.SIGTERM)
            process.wait()


def encoded(password):
    """Returns a password as `htpasswd` keeps it."""
    done = subprocess.run(["openssl", "passwd", "-apr1", password], check=True, capture_output=True)
    return done.stdout.decode().strip()
