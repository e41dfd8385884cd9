"""The story of a run, as texts and pictures, made of the JSON that `log --json` of the program prints.

`reading` takes that JSON. What stands in it no longer is worked out here: `servers` and `silences` (when each server
ran, and why a delivery came to nothing), `run` (both, and what became of each message), `ending` (what was never
delivered, who owns what, what was acknowledged last), `waits` (what a master waits for) and `writes` (what became of
those that were not acknowledged). `spelling` has the words of events and messages. The rest tells: `log`, `mermaid`,
`telling` (the story with its words, which a page holds), `page`, and `hints` with `stale` and `recoveries`: what may not
have been meant in a run.
"""
