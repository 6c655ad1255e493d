"""The texts of faults, and the list in which they are collected."""

from tables import table

texts = table('faults')
DEFINITION_HERE, CALLBACK_HERE, ASSIGNED_HERE = 'Previous definition here', 'Previous callback set here', 'Previously assigned here'


class Faults:
    """The faults in order, as code, place and text."""

    def __init__(self):
        self.list = []

    def add(self, code, place, *parts):
        text = texts.TEXTS[code] if code in texts.TEXTS else texts.SHAPES[code].format(*parts)
        self.list.append((code, place, text))

    def add_both(self, code, place, former, text, *parts):
        """A fault, and the former place behind it."""
        self.add(code, place, *parts)
        self.list.append(('Previous', former, text))

    def lines(self):
        """The lines that the program writes. What `Regex` says behind its place is left open."""
        return [f'{start}..{end} {code}: {text}'.replace('\n', '\\n') for code, (start, end), text in self.list]
