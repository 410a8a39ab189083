"""Why a call was refused."""

TEXTS = (  # by number, word for word those of the header
    "not refused",
    "ring size, own office or plots out of range",
    "the store is not sound, or too short",
    "a session is not sound for this ring, or no frame or token has this content",
    "a plot is out of range, or there are more than 16",
    "the value is too great",
    "the office has made its 32 entries",
    "over 16 entries would be carried",
    "a row is too short",
    "the words are no frame or token of this ring",
    "an entry names this office and was not made here",
    "an entry is held or carried with other content",
    "an entry that was read or is depended on is not held",
)


class Refused(Exception):
    """A call was refused; it has changed nothing."""

    def __init__(self, number):
        self.number = number
        self.text = TEXTS[number] if number < len(TEXTS) else "no refusal of this library"
        super().__init__(f"refused {number}: {self.text}")
