"""Tests of what stands in tools/; `scripts/check/tools` runs them."""
