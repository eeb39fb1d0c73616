"""Refusals (document 01, "Where each thing is checked")."""


class Refused(Exception):
    """A call or a sheet is refused: the number of the condition, and a place, 0 where none is named."""

    def __init__(self, number, place=0):
        super().__init__(number, place)
        self.number = number
        self.place = place
