"""The servers of a test: which of them is the primary, how a replica becomes one, and which servers follow it."""
import threading
import time

from observing import Trouble
from redis_client import Connection, ErrorReply, fields_of, host_and_port, reason

OLDEST = 5  # the first major version that replicates the effects of a script instead of the script
QUICK = 1.0  # seconds for a server that may be stopped
FIRST = 5.0  # seconds for a server that should be there, since its machine may be busy
PATIENCE = 10.0  # seconds until a server must be back, or until a replica must have everything
PAUSE = 0.05


def info(address, section, seconds=QUICK):
    with Connection(address, seconds) as connection:
        return fields_of(connection.ask("INFO", section))


def role_of(address):
    """The role of a server, or None if it can't be reached now."""
    try:
        return info(address, "replication").get("role")
    except (OSError, ErrorReply):
        return None


def check_version(address):
    """Raises Trouble unless a Redis server that can be tested is there."""
    try:
        server = info(address, "server", FIRST)
    except OSError as error:
        raise Trouble(f"{address}: {reason(error)}. Start the server, or correct HOST:PORT") from None
    except ErrorReply as error:
        needs_password = error.kind in ("NOAUTH", "WRONGPASS")
        advice = "Set REDISCLI_AUTH to the password" if needs_password else "Is this a Redis server?"
        raise Trouble(f"{address}: {reason(error)}. {advice}") from None
    version = server.get("redis_version", "of an unknown version")
    if not version.split(".")[0].isdecimal() or int(version.split(".")[0]) < OLDEST:
        raise Trouble(f"{address} is Redis {version}. Use {OLDEST}.0 or later, which replicates the effects of scripts")
    if server.get("redis_mode") != "standalone":
        raise Trouble(f"{address} runs in the mode {server.get('redis_mode')}. Give servers that are not in a cluster")


def check_roles(primary, replicas):
    """Raises Trouble unless the first server is a primary, and the others follow it. A new link has some time."""
    end = time.monotonic() + PATIENCE
    while True:
        try:
            about = {address: info(address, "replication", FIRST) for address in (primary, *replicas)}
        except (OSError, ErrorReply) as error:
            raise Trouble(f"INFO replication fails: {reason(error)}. Look at the logs of the servers") from None
        if about[primary].get("role") != "master":
            raise Trouble(f"{primary} is a replica. Give the primary first, and then its replicas")
        strange = [address for address in replicas if not follows(about[address], about[primary])]
        if not strange:
            return
        if about[strange[0]].get("role") != "slave" or time.monotonic() > end:
            host, port = host_and_port(primary)
            raise Trouble(f"{strange[0]} does not follow {primary}. Let it execute REPLICAOF {host} {port}. If that"
                          " does not help, look at its log")
        time.sleep(PAUSE)


def follows(replica, primary):
    return replica.get("master_link_status") == "up" and replica.get("master_replid") == primary.get("master_replid")


class Servers:
    def __init__(self, addresses, say):
        self.addresses, self.say = addresses, say
        self.lock = threading.Lock()
        self.primary = addresses[0]  # None during a failover
        for address in addresses:
            check_version(address)
        check_roles(addresses[0], addresses[1:])

    def find_primary(self):
        """Looks for a new primary, because a client got no reply. A server that still is one remains the primary."""
        if not self.lock.acquire(blocking=False):
            return
        try:
            masters = (address for address in [self.primary, *self.addresses] if role_of(address) == "master")
            found = next(masters, self.primary)
            if found != self.primary:
                self.say(f"{found} is the primary now")
                self.primary = found
        finally:
            self.lock.release()

    def number_of(self, role):
        """The number of the primary, or of the replica that has read most from it."""
        offsets = {}
        for number, address in enumerate(self.addresses):
            try:
                fields = info(address, "replication")
            except (OSError, ErrorReply):
                continue
            if role == "primary" and address == self.primary or role == "replica" and fields.get("role") == "slave":
                offsets[number] = int(fields["master_repl_offset"])
        if not offsets:
            raise Trouble(f"no {role} can be reached. Write the number of a server instead of {role}")
        return max(offsets, key=offsets.get)

    def fail_over(self, address):
        """Makes a replica the primary. The other servers follow it, if they can be reached."""
        with self.lock:
            former, self.primary = self.primary, None
            # A former primary that still runs must not reply to anybody once the new one does.
            self.follow(former, address)
            try:
                command(address, "REPLICAOF", "NO", "ONE")
            except (OSError, ErrorReply) as error:
                self.primary = former
                raise Trouble(f"{address} can't become the primary: {reason(error)}") from None
            for other in self.addresses:
                if other not in (address, former):
                    self.follow(other, address)
            self.primary = address

    def follow(self, address, primary):
        try:
            command(address, "REPLICAOF", *host_and_port(primary))
            return True
        except (OSError, ErrorReply):
            return False

    def come_back(self, address):
        """Waits for a server that was stopped or restarted, and lets it follow the primary unless it is the primary."""
        end = time.monotonic() + PATIENCE
        while time.monotonic() < end:
            primary = self.primary
            if primary and (role_of(address) if address == primary else self.follow(address, primary)):
                return
            time.sleep(PAUSE)
        raise Trouble(f"{address} can't be reached within {PATIENCE:.0f} s. Look at its log, or correct the command in"
                      " the recipe")

    def followers(self, streams):
        """The servers that have everything that the primary has, by their streams, and the servers that are late. Waits
        for all servers that can be reached."""
        end = time.monotonic() + PATIENCE
        now = self.place_of_primary(end)
        late = [address for address in self.addresses if role_of(address)]
        settled = []
        while late and time.monotonic() < end:
            for address in late[:]:
                if streams[address].has(now["master_replid"], int(now["master_repl_offset"])):
                    late.remove(address)
                    settled.append(address)
            time.sleep(PAUSE)
        return settled, late

    def place_of_primary(self, end):
        """The replication history of the primary and its offset. There may be no primary for a while."""
        while True:
            try:
                fields = info(self.primary, "replication")
                if fields["role"] == "master":
                    return fields
                problem = "it is a replica now"
            except (OSError, ErrorReply) as error:
                problem = reason(error)
            if time.monotonic() > end:
                raise Trouble(f"{self.primary}: {problem}. Without a primary, nobody notices commands that were lost at"
                              " the end. Start it again, or make a replica the primary")
            time.sleep(PAUSE)
            self.find_primary()


def command(address, *words):
    with Connection(address, QUICK) as connection:
        connection.ask(*words)
