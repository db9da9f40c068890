"""What the tests of the notebook share: the count of what passed, and an output that notes what a cell shows."""
passed, failures = [], []


def expect(what, got, wanted):
    """Notes whether something is as it is wanted."""
    if got == wanted:
        passed.append(what)
    else:
        failures.append(what)
        print(f"notebook: {what}: {str(got)[:1500]!r}, not {str(wanted)[:1500]!r}", flush=True)


def holds(what, truth, told=""):
    """Notes whether something holds; `told` is what is seen where it does not."""
    expect(what, truth or told or truth, truth if truth else True)


class Noted:
    """The output of a cell, as a list of what it shows: texts, pictures and errors."""

    def __init__(self, stop=None):
        self.shown, self.pictures, self.ticks, self.stop = [], [], [], stop

    def text(self, text):
        """Notes a text."""
        self.shown.append(text)

    def picture(self, text, drawn):
        """Notes a picture by its text."""
        self.shown.append(text)
        self.pictures.append(drawn)

    def error(self, name, text, lines):
        """Notes an error by its lines."""
        self.shown.append("\n".join(lines))
        return name, text

    def seconds(self, seconds):
        """Notes how long the cell ran; a second is long where it is to be stopped."""
        self.ticks.append(seconds)
        if self.stop and seconds > 1:
            self.stop()

    def done(self):
        """Nothing."""
