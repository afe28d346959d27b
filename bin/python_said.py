"""The words that the Python scripts here take, and what they print, on streams that may be closed or full."""
import os
import signal
import sys

UNWRITTEN = "standard output can't be written"


def end_by_interrupts():
    """Lets an interrupt end the script as it ends other programs, without a word, unless it is ignored."""
    if signal.getsignal(signal.SIGINT) is signal.default_int_handler:
        signal.signal(signal.SIGINT, signal.SIG_DFL)


def written(stream, text):
    """Whether a text is all out on a stream of this number."""
    rest = text.encode('utf-8', 'surrogateescape')
    try:
        while rest:
            rest = rest[os.write(stream, rest):]
    except OSError:
        return False
    return True


def say(words):
    """Says something on standard error, if it can be written."""
    written(2, f'fatyngu: {words}\n')


def fail(status, words):
    """Says why, and ends."""
    say(words)
    sys.exit(status)


def printed(text):
    """Prints a text on standard output, or ends."""
    if not written(1, text):
        fail(5, UNWRITTEN)


def words_of(given, usage, flags=(), options=(), lists=()):
    """The words beside options, and the options with their values, as the program reads its words: options begin with
    two dashes, stand in front of `--`, and each once, but for those of lists, whose values are a list. Other words end
    the run."""
    places = []
    found = {}
    rest = iter(given)
    for word in rest:
        if word == '--':
            places += rest
        elif not word.startswith('--'):
            places.append(word)
        elif word in lists:
            found.setdefault(word, []).append(next(rest, None))
            if found[word][-1] is None:
                fail(2, usage)
        elif word in found or word not in (*flags, *options):
            fail(2, usage)
        else:
            found[word] = next(rest, None) if word in options else word
            if found[word] is None:
                fail(2, usage)
    return places, found
