"""How many examples the tests draw: HYPOTHESIS_PROFILE is few (the same ones each time), quick or long."""
import os

from hypothesis import settings

settings.register_profile("few", max_examples=15, deadline=None, database=None, derandomize=True)
settings.register_profile("quick", max_examples=100, deadline=None)
settings.register_profile("long", max_examples=1000, deadline=None)
settings.load_profile(os.environ.get("HYPOTHESIS_PROFILE", "quick"))
