"""How much of the processor's time runs take."""
import resource
import subprocess
import tempfile


def processor_seconds():
    """The processor's seconds of the processes that have ended."""
    used = resource.getrusage(resource.RUSAGE_CHILDREN)
    return used.ru_utime + used.ru_stime


def seconds_of(words, stream):
    """The processor's seconds of a run, and what it ended with: the first line of its output, and its status."""
    stream.seek(0)
    with tempfile.TemporaryFile() as out:
        before = processor_seconds()
        status = subprocess.run(words, stdin=stream, stdout=out).returncode
        seconds = processor_seconds() - before
        out.seek(0)
        return seconds, "answered by %s, status %d" % (out.readline().decode("latin-1").strip(), status)
