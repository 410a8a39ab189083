"""Sessions, which the calls of an office change, and their tokens as lists of words."""
from burial import TOKEN_WORDS, calls, room, row


def fresh_session(ring):
    """A session with nothing read and nothing written."""
    return calls.burial_fresh_session(ring.offices).session


def join_sessions(ring, first, second):
    """One session that knows what either of the two knows. They stay as they are."""
    return calls.burial_join_sessions(ring.offices, ring.plots, first, second).session


def session_of(ring, token):
    """The session that a token was made from."""
    words = row(token)
    return calls.burial_read_token(words, len(words), ring.offices, ring.plots).session


def token_of(session):
    """A session as words, to be kept or taken to another office."""
    out = room(TOKEN_WORDS)
    written = calls.burial_write_token(session, out, len(out))
    return out[:written.words]
