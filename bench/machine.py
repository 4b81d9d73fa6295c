"""What the machine is and did beside a measurement, for the scripts beside this one: a time says little where its processors were taken."""
import os
import platform

QUIET = 5  # percent of the processors' time that others may take beside a measurement


def field(path, name):
    """What a file of the system says of a name, or None."""
    try:
        with open(path) as file:
            return next((line.split(":", 1)[1].strip() for line in file if line.startswith(name)), None)
    except OSError:
        return None


def file_system(folder):
    """The kind of the file system in which a folder is, or None."""
    folder = os.path.realpath(folder) + "/"
    try:
        with open("/proc/mounts") as file:
            mounts = [line.split()[1:3] for line in file]
    except OSError:
        return None
    return max((mount for mount in mounts if folder.startswith(mount[0].rstrip("/") + "/")), key=lambda mount: len(mount[0]), default=(None, None))[1]


def described(folder):
    """What the machine is, and how it keeps the files of a folder."""
    memory = field("/proc/meminfo", "MemTotal")
    return {"processors": os.cpu_count(), "model": field("/proc/cpuinfo", "model name"), "memory in GB": memory and round(int(memory.split()[0]) * 1024 / 1e9, 1),
            "system": f"{platform.system()} {platform.release()}", "file system": file_system(folder)}


class Machine:
    """The processors' times from a moment on."""

    def __init__(self):
        self.began, self.own = self.times(), self.own_seconds()

    @staticmethod
    def times():
        """What all processors did, in ticks: of this system in front of others, at less than its usual rank, for itself, nothing, waiting
        for a disk, for interrupts (2), and what another system had in its place. Gives None where the system doesn't tell."""
        try:
            with open("/proc/stat") as stat:
                return [int(each) for each in stat.readline().split()[1:9]]
        except OSError:
            return None

    @staticmethod
    def own_seconds():
        """What this process took of the processors, and those that it started and that have ended."""
        return sum(os.times()[:4])

    def shares(self):
        """The percentages of the processors' time that was nobody's, that processes took which this one didn't start, and that other systems
        took. Processes that this one started have to have ended."""
        if not self.began:
            return None
        spent = [now - then for now, then in zip(self.times(), self.began)]
        own = (self.own_seconds() - self.own) * os.sysconf("SC_CLK_TCK")
        others = max(sum(spent) - spent[3] - spent[4] - spent[7] - own, 0)
        return {name: round(100 * ticks / max(sum(spent), 1), 1) for name, ticks in (("idle", spent[3]), ("others", others), ("stolen", spent[7]))}

    def __str__(self):
        words = f"{os.cpu_count()} processors, {os.getloadavg()[0]:.1f} processes that ran or waited over the last minute"
        shares = self.shares()
        if not shares:
            return words
        return words + f"; since the begin {shares['idle']:.0f} % idle, {shares['stolen']:.0f} % taken by other systems"
