"""What ends a statement of the table over a store without an answer."""


class Damage(Exception):
    """The kind of damage, and the block that it was met in. It ends the store."""


class Nothing(Exception):
    """What is asked is not there to be asked of."""
