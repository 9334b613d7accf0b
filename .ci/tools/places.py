"""Places in a text: signs that stand where a fault is planted and that are taken out again."""

FIRST = 0xE000


class Marks:
    """Signs of their own, of the private use area of Unicode."""

    def __init__(self):
        self.count = 0

    def new(self):
        self.count += 1
        return chr(FIRST + self.count)

    def cleared(self, text):
        """The text without the signs."""
        return "".join(sign for sign in text if not FIRST <= ord(sign) <= FIRST + self.count)

    def place(self, text, mark):
        """The line and the column, from 1, of a sign."""
        lines = self.cleared(text[:text.index(mark)]).replace("\r\n", "\n").split("\n")
        return len(lines), len(lines[-1]) + 1
