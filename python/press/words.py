"""The words for each answer number; they stand in chemstation.answers, once."""
from chemstation.answers import meaning

__all__ = ["meaning"]
