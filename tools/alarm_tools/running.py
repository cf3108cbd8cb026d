"""A program that was begun beside a tool."""


def end_at_once(run):
    """Ends it in any case, and closes what leads to it."""
    if run.poll() is None:
        run.kill()
        run.wait()
    for stream in (run.stdin, run.stdout, run.stderr):
        try:
            stream.close()
        except BrokenPipeError:
            pass
