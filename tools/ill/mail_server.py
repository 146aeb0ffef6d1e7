"""Mail servers on the loopback, for tools/mail-server: exim, with a configuration, a spool and a log in a folder of its own.

A server belongs to the user who starts it, and wants no right of root. It listens at a free port of 127.0.0.1. It takes
the mails of its own domain, and sends those of its partner's to the partner's port. The mails of `loans` come into a
Maildir or go through procmail, and those of `pipe` to `ill-mail receive` itself.
"""
import contextlib
import os
import shutil
import smtplib
import socket
import subprocess
import time

from ill import harness

HOST = "127.0.0.1"
PLACES = "/usr/local/sbin:/usr/sbin:/usr/local/bin:/usr/bin:/bin"
# The programs, with their Debian packages. A program may have several names.
WANTED = {("exim4", "exim"): "exim4-daemon-light", ("procmail",): "procmail"}
LONGEST = 300 * harness.SECONDS // 60  # seconds until all mails are delivered
FIRST_WAIT = 10  # seconds until a server listens

CONFIGURATION = """\
exim_user = {user}
exim_group = {group}
unknown_login = loans
primary_hostname = mail.{domain}
qualify_domain = {domain}
domainlist local_domains = {domain}
spool_directory = {folder}/spool
log_file_path = {folder}/log/%slog
local_interfaces = {host}
daemon_smtp_ports = {port}
deliver_drop_privilege = true
tls_advertise_hosts =
keep_environment =
add_environment = PATH={path}
host_lookup =
message_size_limit = 50M
ignore_bounce_errors_after = 0s
acl_smtp_rcpt = at_rcpt
begin acl
at_rcpt:
  accept domains = +local_domains
  deny message = no relay
begin routers
partner:
  driver = manualroute
  domains = ! +local_domains
  transport = smtp
  route_list = {partner_domain} {host}
  self = send
  no_more
loans:
  driver = accept
  local_parts = loans
  transport = {transport}
pipe:
  driver = accept
  local_parts = pipe
  transport = pipe
begin transports
smtp:
  driver = smtp
  port = {partner_port}
maildir:
  driver = appendfile
  directory = {folder}/Maildir
  maildir_format
procmail:
  driver = pipe
  command = {procmail} -m {folder}/procmailrc
  path = {path}
pipe:
  driver = pipe
  command = {receive}
  path = {path}
  return_fail_output
begin retry
* * F,1h,1m
"""


def found(names):
    """Returns the path of a program that has one of these names, or None."""
    return next(filter(None, (shutil.which(name, path=PLACES) for name in names)), None)


def missing():
    """Returns the packages whose programs are not installed."""
    return [package for names, package in WANTED.items() if not found(names)]


def free_ports(count):
    """Returns ports of the loopback on which nobody listens."""
    with contextlib.ExitStack() as stack:
        sockets = [stack.enter_context(socket.socket()) for _ in range(count)]
        for it in sockets:
            it.bind((HOST, 0))
        return [it.getsockname()[1] for it in sockets]


class Server:
    """The mail server of a domain. `as_user` are the words of `subprocess.run` for its user."""

    def __init__(self, folder, domain, port, as_user):
        """Keeps the folder, the domain and the port. `exim` and `sendmail` are its commands."""
        self.folder, self.domain, self.port, self.as_user = folder, domain, port, as_user
        self.exim = [found(("exim4", "exim")), "-C", os.path.join(folder, "exim.conf")]
        self.sendmail = os.path.join(folder, "sendmail")
        self.daemon = None

    def ids(self):
        """Returns the numbers of its user and of its group."""
        return self.as_user.get("user", os.getuid()), self.as_user.get("group", os.getgid())

    def configure(self, partner, transport, receive):
        """Writes the configuration, and a program with the interface of sendmail. `partner` is the other server.
        `transport` is `maildir` or `procmail`, for the mails of `loans`. `receive` is the command that gets the mails
        of `pipe`."""
        user, group = self.ids()
        harness.write(self.exim[-1], CONFIGURATION.format(
            user=user, group=group, domain=self.domain, folder=self.folder, host=HOST, port=self.port,
            partner_domain=partner.domain, partner_port=partner.port, transport=transport, receive=receive,
            procmail=found(("procmail",)), path=PLACES))
        harness.write(self.sendmail, f'#!/bin/sh\nexec {" ".join(self.exim)} "$@"\n')
        os.chmod(self.sendmail, 0o755)

    def start(self):
        """Starts the server, and waits until it listens. Raises `Wrong` if it does not within `FIRST_WAIT` seconds."""
        with open(os.path.join(self.folder, "daemon.log"), "wb") as log:
            self.daemon = subprocess.Popen([*self.exim, "-bdf"], stdin=subprocess.DEVNULL, stdout=log, stderr=log, **self.as_user)
        for _ in range(FIRST_WAIT * 20):
            time.sleep(0.05)
            with contextlib.suppress(OSError), smtplib.SMTP(HOST, self.port, timeout=FIRST_WAIT):
                return
        said = harness.read(os.path.join(self.folder, "daemon.log"))
        raise harness.Wrong(f"the server of {self.domain} does not listen: {harness.short(said)}")

    def stop(self):
        """Stops the server, if it runs."""
        if self.daemon:
            self.daemon.terminate()
            self.daemon.wait()

    def waiting(self):
        """Returns true if mails wait in the queue."""
        queue = os.path.join(self.folder, "spool", "input")
        return os.path.isdir(queue) and bool(os.listdir(queue))

    def deliver(self):
        """Delivers what waits in the queue, what was put off too."""
        subprocess.run([*self.exim, "-qf"], check=False, capture_output=True, timeout=LONGEST, **self.as_user)

    def log(self):
        """Returns the lines of its log."""
        return harness.read(os.path.join(self.folder, "log", "mainlog")).decode(errors="replace").splitlines()


def settle(servers):
    """Delivers mails until none is on its way, or raises `Wrong` after `LONGEST` seconds. A mail may go from each
    server to each, so each queue is looked at twice."""
    end = time.monotonic() + LONGEST
    while any([server.waiting() for _ in range(2) for server in servers]):
        if time.monotonic() > end:
            raise harness.Wrong("mails are still on their way")
        for server in servers:
            server.deliver()
        time.sleep(0.05)


def bring(server, sender, recipient, mails):
    """Brings mails to a server, as anybody can who knows an address. The sender is what a stranger says."""
    with smtplib.SMTP(HOST, server.port, local_hostname="stranger.example", timeout=LONGEST) as connection:
        for mail in mails:
            connection.sendmail(sender, [recipient], mail)
