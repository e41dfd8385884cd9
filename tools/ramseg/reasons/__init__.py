"""Why a scenario, a trace or a history is refused, and why a run stopped: the place, the cause and the remedy.

The program says no more than `error F17 at P` or `stopped F18 at event N`. To tell a cause the input is read again
here. Nothing here decides anything; where no cause is found, the texts say so.
"""
