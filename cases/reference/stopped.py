"""Why a run ends before it is done: its status, and the first line of the error stream."""


class Stopped(Exception):
    def __init__(self, status, note):
        super().__init__(status, note)
        self.status = status
        self.note = note
