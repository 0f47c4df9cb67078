"""Real RTR clients for tests/peers, each run in the foreground with files and ports of its own, and how its table is read back.

A client says why it cannot be tried (`missing`), starts against a port, gives the records that it has (`table`, or `faults` where it does not show them), and the numbers of the last End of Data as far as
it tells them (`end`).
"""

import glob
import ipaddress
import json
import os
import re
import shutil
import socket
import subprocess

import origin
import run_model as model
from diff_model import Record


def record(address, length, longest, asn):
    """A record as people write it; an AS number may have come out negative."""
    found = ipaddress.ip_address(address)
    number = int(found)
    words = (number, 0, 0, 0) if found.version == 4 else tuple(number >> 96 - 32 * i & 0xFFFFFFFF for i in range(4))
    return Record(found.version, words, int(length), int(longest), int(asn) % 2 ** 32)


def address(of):
    """A record's address as people write it."""
    if of.family == 4:
        return str(ipaddress.IPv4Address(of.address[0]))
    return str(ipaddress.IPv6Address(sum(word << 96 - 32 * i for i, word in enumerate(of.address))))


def text(of):
    return "%s/%d-%d AS%d" % (address(of), of.length, of.max, of.asn)


def free_port():
    with socket.create_server(("127.0.0.1", 0)) as one:
        return one.getsockname()[1]


class Client:
    # a name, Debian's packages, the programs (found on the PATH or as files), whether root is needed, and the versions that it takes
    name, packages, programs, needs_root, versions = "", "", (), False, (0, 1)

    def missing(self):
        for program in self.programs:
            if not shutil.which(program, path=os.environ.get("PATH", "") + ":/usr/sbin:/sbin"):
                return "not installed (Debian: %s)" % self.packages
        if self.needs_root and os.geteuid() != 0:
            return "it needs root"
        return None

    def program(self, name):
        return shutil.which(name, path=os.environ.get("PATH", "") + ":/usr/sbin:/sbin")

    def start(self, port, folder):
        self.folder, self.process = folder, None
        self.log = os.path.join(folder, "log")
        with open(self.log, "wb") as log, open(os.path.join(folder, "out"), "wb") as out:
            self.process = subprocess.Popen(self.words(port), cwd=folder, stdin=subprocess.DEVNULL, stdout=out, stderr=log)

    def stop(self):
        if not self.process:
            return
        self.process.terminate()
        try:
            self.process.wait(10)
        except subprocess.TimeoutExpired:
            self.process.kill()
            self.process.wait()

    def said(self, name="log"):
        with open(os.path.join(self.folder, name), errors="replace") as file:
            return file.read()

    def asked(self, *words):
        """What a program of the client's prints; nothing where it fails, as before the client is up."""
        done = subprocess.run(words, stdin=subprocess.DEVNULL, stdout=subprocess.PIPE, stderr=subprocess.DEVNULL, text=True, timeout=60)
        return done.stdout if done.returncode == 0 else ""

    def left_out(self):
        """Records that the client has taken and does not keep."""
        return set()

    def faults(self, table):
        """How the client's table differs from one, in words; none where it is the same."""
        have, left = self.table(), self.left_out()
        wrong = {"missing": sorted(set(table) - have - left), "too many": sorted(have - set(table))}
        return ["%d records are %s, as %s" % (len(records), what, text(records[0])) for what, records in wrong.items() if records]


def librtr_end(log):
    """The numbers in librtr's own log lines."""
    sync = re.findall(r"Sync successful.*session_id: (-?\d+), SN: (-?\d+)", log)
    intervals = re.findall(r"New interval values: expire_interval:(\d+), refresh_interval:(\d+), retry_interval:(\d+)", log)
    found = {}
    if sync:
        found.update(session=int(sync[-1][0]) % 2 ** 16, serial=int(sync[-1][1]) % 2 ** 32)
    if intervals:
        found.update(zip(("expire", "refresh", "retry"), map(int, intervals[-1])))
    return found


class Rtrclient(Client):
    name, packages, programs = "rtrclient", "rtr-tools", ("rtrclient", "stdbuf")

    def words(self, port):
        # it writes lines as they come only to a terminal
        return ["stdbuf", "-oL", self.program("rtrclient"), "-p", "tcp", "127.0.0.1", str(port)]

    def table(self):
        found = set()
        for sign, *words in re.findall(r"^([+-]) (\S+) +(\d+) - +(\d+) +(\d+)$", self.said("out"), re.M):
            (found.add if sign == "+" else found.remove)(record(*words))
        return found

    def end(self):
        return librtr_end(self.said())

    def exported(self, port, folder):
        """The table that `rtrclient -e` writes as CSV."""
        path = os.path.join(folder, "csv")
        subprocess.run([self.program("rtrclient"), "-e", "-t", "csv", "-o", path, "tcp", "127.0.0.1", str(port)], stdin=subprocess.DEVNULL, stdout=subprocess.DEVNULL, stderr=subprocess.DEVNULL, timeout=60)
        with open(path) as file:
            return {record(*line.split(", ")) for line in file.read().split("\n") if line.strip()}


class Bird(Client):
    name, packages, programs = "BIRD", "bird2", ("bird", "birdc")

    def words(self, port):
        path = os.path.join(self.folder, "conf")
        with open(path, "w") as out:
            out.write('log stderr all; router id 192.0.2.1; roa4 table r4; roa6 table r6; protocol device {}\n'
                      'protocol rpki cache { roa4 { table r4; }; roa6 { table r6; }; remote 127.0.0.1 port %d; retry keep 5; transport tcp; }\n' % port)
        return [self.program("bird"), "-f", "-c", path, "-s", os.path.join(self.folder, "socket"), "-P", os.path.join(self.folder, "pid")]

    def birdc(self, words):
        return self.asked(self.program("birdc"), "-s", os.path.join(self.folder, "socket"), *words.split())

    def table(self):
        return {record(*words) for table in ("r4", "r6") for words in re.findall(r"^(\S+)/(\d+)-(\d+) AS(\d+) ", self.birdc("show route table " + table), re.M)}

    def left_out(self):
        return {record(*words) for words in re.findall(r"Ignoring bogus route (\S+)/(\d+)-(\d+) AS(\d+) ", self.said())}

    def end(self):
        shown = self.birdc("show protocols all cache")
        names = {"session": r"Session ID: +(\d+)", "serial": r"Serial number: +(\d+)", "refresh": r"Refresh timer +: \S+/(\d+)", "expire": r"Expire timer +: \S+/(\d+)"}
        return {name: int(found.group(1)) for name, form in names.items() for found in [re.search(form, shown)] if found}


class Frr(Client):
    name, packages, programs, needs_root = "FRR", "frr frr-rpki-rtrlib", ("/usr/lib/frr/bgpd", "vtysh"), True

    def missing(self):
        if not Client.missing(self) and not glob.glob("/usr/lib/*/frr/modules/bgpd_rpki.so"):
            return "its RPKI module is not installed (Debian: frr-rpki-rtrlib)"
        return Client.missing(self)

    def words(self, port):
        path = os.path.join(self.folder, "conf")
        with open(path, "w") as out:
            out.write("rpki\n rpki cache 127.0.0.1 %d preference 1\n exit\n" % port)
        # neither zebra nor a BGP port is needed
        return ["/usr/lib/frr/bgpd", "-M", "rpki", "-f", path, "-Z", "-S", "-p", "0", "-P", "0", "-i", os.path.join(self.folder, "pid"), "--vty_socket", self.folder, "-u", "root", "-g", "root"]

    def table(self):
        shown = self.asked(self.program("vtysh"), "--vty_socket", self.folder, "-d", "bgpd", "-c", "show rpki prefix-table json")
        try:
            return {record(one["prefix"], one["prefixLenMin"], one["prefixLenMax"], one["asn"]) for one in json.loads(shown)["prefixes"]}
        except (ValueError, KeyError):    # before it is in step with its cache
            return set()

    def end(self):
        return librtr_end(self.said() + self.said("out"))


class Openbgpd(Client):
    name, packages, programs, needs_root, versions = "OpenBGPD", "openbgpd", ("bgpd", "bgpctl"), True, (1,)
    LOCAL_AS = 64496
    CHROOT = "/run/openbgpd"

    def missing(self):
        if not Client.missing(self) and "OpenBGPD" not in subprocess.run([self.program("bgpd"), "-V"], stdout=subprocess.PIPE, stderr=subprocess.STDOUT, text=True).stdout:
            return "bgpd is another program (Debian: openbgpd)"
        return Client.missing(self)

    def words(self, port):
        self.made = not os.path.exists(self.CHROOT)
        os.makedirs(self.CHROOT, exist_ok=True)    # as its service does
        path, self.socket = os.path.join(self.folder, "conf"), os.path.join(self.folder, "socket")
        with open(path, "w") as out:
            # a neighbor that never comes: without one `show rib` is refused
            out.write('AS %d\nrouter-id 192.0.2.1\nlisten on 127.0.0.1 port %d\nsocket "%s"\nfib-update no\nrtr 127.0.0.1 {\n\tport %d\n}\nneighbor 127.0.0.9 {\n\tremote-as 64497\n\tpassive\n}\n'
                      % (self.LOCAL_AS, free_port(), self.socket, port))
        os.chmod(path, 0o600)
        return [self.program("bgpd"), "-d", "-v", "-f", path]

    def stop(self):
        Client.stop(self)
        if self.made:
            try:
                os.rmdir(self.CHROOT)
            except OSError:    # it left a file there
                pass

    def bgpctl(self, *words):
        shown = self.asked(self.program("bgpctl"), "-j", "-s", self.socket, *words)
        try:
            return json.loads(shown)
        except ValueError:
            return {}

    def end(self):
        found = (self.bgpctl("show", "rtr").get("rtrs") or [{}])[0]
        names = {"session": "session_id", "serial": "serial", "refresh": "refresh", "retry": "retry", "expire": "expire"}
        return {name: found[theirs] for name, theirs in names.items() if theirs in found}

    def faults(self, table):
        """It shows how many prefixes it has, not which: routes of its own are announced at each record's edges, and it says whether each is valid."""
        counts = [len({one[:3] for one in table if one.family == family}) for family in (4, 6)]
        sets = [(one["num_IPv4"], one["num_IPv6"]) for one in self.bgpctl("show", "sets").get("sets", []) if one["type"] == "ROA"]
        if sets != [tuple(counts)]:
            return ["it has %s prefixes of each family and must have %s" % (sets, counts)]
        wanted = self.states(table)
        self.asked(self.program("bgpctl"), "-s", self.socket, "network", "flush")
        subprocess.run([self.program("bgpctl"), "-s", self.socket, "network", "bulk", "add"], input="\n".join(wanted) + "\n", text=True, stdout=subprocess.DEVNULL, timeout=60)
        shown = {str(ipaddress.ip_network(one["prefix"])): one["ovs"] for one in self.bgpctl("show", "rib").get("rib", [])}
        if set(shown) != set(wanted):
            return ["of %d routes it has %d" % (len(wanted), len(set(shown) & set(wanted)))]
        return ["%s is %s and must be %s" % (route, shown[route], state) for route, state in wanted.items() if shown[route] != state][:3]

    def states(self, table):
        """Routes at each record's length, max and one past it, with their RFC 6811 states for its own AS number. Edges of all records ever served are asked, so that what should be gone is noticed."""
        lent = model.room(sorted(table)).numbers
        records = [lent[i:i + 6] for i in range(0, 6 * len(table), 6)]
        found = {}
        for one in self.edges:
            for length in {one.length, one.max, min(one.max + 1, 32 if one.family == 4 else 128)}:
                state = origin.state_of(records, (one.family * 65536 + length, *one.address, self.LOCAL_AS))
                found[str(ipaddress.ip_network("%s/%d" % (address(one), length)))] = ("not-found", "valid", "invalid")[state]
        return found


class Rtrdump(Client):
    name, packages, programs = "rtrdump", "stayrtr", ("rtrdump",)

    @staticmethod
    def is_mapped(one):
        """An IPv4-mapped prefix: it takes it, and prints it as IPv4 with a max over 32."""
        return one.family == 6 and one.address[:3] == (0, 0, 0xFFFF) or one.family == 4 and one.max > 32

    def dump(self, port, folder, version, *words):
        """Its JSON as records, and its log's prefixes in order with their flags."""
        path = os.path.join(folder, "json %d" % len(os.listdir(folder)))
        done = subprocess.run([self.program("rtrdump"), "-connect", "127.0.0.1:%d" % port, "-rtr.version", str(version), "-file", path, "-loglevel", "debug", "-datapdu", *words],
                              stdin=subprocess.DEVNULL, stdout=subprocess.PIPE, stderr=subprocess.STDOUT, text=True, timeout=60)
        with open(path) as file:
            roas = {record(*one["prefix"].split("/"), one["maxLength"], one["asn"]) for one in json.load(file)["roas"] or []}
        sent = [(int(flags), record(*words)) for *words, flags in re.findall(r"Prefix v%d (\S+)/(\d+)\(->/(\d+)\), origin: AS(\d+), flags: (\d+)" % version, done.stdout)]
        end = re.search(r"End of Data v%d \(session: (\d+)\): serial: (\d+)(?:, refresh: (\d+), retry: (\d+), expire: (\d+))?" % version, done.stdout)
        roas, sent = {one for one in roas if not self.is_mapped(one)}, [one for one in sent if not self.is_mapped(one[1])]
        return roas, sent, dict(zip(("session", "serial", "refresh", "retry", "expire"), map(int, filter(None, end.groups())))) if end else {}


CLIENTS = (Rtrclient(), Bird(), Frr(), Openbgpd(), Rtrdump())
