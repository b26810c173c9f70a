"""A store's requests in a browser: what `python3 -m cf.requests --store ADDRESS serve` shows.

One process reads the store, and any number of browsers look at what it knows. It runs no function, and puts words only
for who asks it to.
"""
