"""Zipline's domains. A Pipeline takes one and ignores it: the calendar is that of the sessions file."""

GENERIC = US_EQUITIES = None
